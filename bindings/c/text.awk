# Writes the C source of watcher_error_text and watcher_version from the table of refusals: of each
# record the number, which begins it, and the line `text`.
BEGIN {
  print "/* Made from bindings/rust/refusals.txt by bindings/c/text.awk. */"
  print "#include \"watcher.h\"\n"
  print "const char *watcher_version(void) {\n  return WATCHER_VERSION;\n}\n"
  print "const char *watcher_error_text(watcher_error_t number) {\n  switch (number) {"
  RS = ""
  FS = "\n"
}
$1 ~ /^[0-9]/ {
  split($1, head, " ")
  text = substr($2, length("text ") + 1)
  gsub(/[\\"]/, "\\\\&", text)
  printf "  case %d:\n    return \"%s\";\n", head[1], text
}
END {
  print "  default:\n    return \"an unknown refusal\";\n  }\n}"
}
