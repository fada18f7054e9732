//! The web page around a highlighted file.

/// The page before the style sheet, and the page between it and the text, which ends with a newline, since browsers drop
/// a newline right after `<pre>`.
pub const HEAD: [&str; 2] = [
    "<!DOCTYPE html>
<html lang=\"en\">
<head>
<meta charset=\"utf-8\">
<meta name=\"viewport\" content=\"width=device-width\">
<title>Rust</title>
<style>
",
    ":root { color-scheme: light dark; }
body { margin: 0; }
pre { margin: 0; padding: 1em 1.5em; font: 14px/1.5 ui-monospace, \"DejaVu Sans Mono\", monospace; tab-size: 4;
  white-space: pre-wrap; word-break: break-all; overflow-wrap: anywhere; }
.comment, .doc, mark::after { word-break: normal; }
</style>
</head>
<body class=\"rust-code\">
<pre>
",
];

/// The page after the text.
pub const FOOT: &str = "</pre>
</body>
</html>
";
