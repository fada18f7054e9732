/* A C++ program that includes the header twice and links with the library. */
#include "rustc_lexer.h"
#include "rustc_lexer.h"

int main() {
    return int(rustc_lexer_check(NULL, 0)) + (*rustc_lexer_kind_name(1) != 'L');
}
