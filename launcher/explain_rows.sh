# Refused inputs: what the header has to be, and what is wrong with a record.
explain_rows() {
  local index why text=${answer%$'\n'}
  read_schema "${2-}"
  case $text in
    'waldo: header')
      tell rows "the first line of the input has to be '$(header)', the schema's columns and value"
      ;;
    'waldo: more rows than '*)
      tell messages "the input has more rows than ${text##* }, the capacity; the schema has room for $(room)"
      ;;
    'waldo: fewer rows than '*)
      tell tree "the range ends at place ${text##* }, and the input has fewer rows; --to is at most the number of rows"
      ;;
    'waldo: input too long') tell messages "the input has more than 16777216 bytes; ask over a part of it" ;;
    'waldo: record '*)
      read -r _ _ index why <<<"$text"
      tell rows "record $index is line $((10#$index + 1)) where no line is empty; $(record_fault "$why")"
      ;;
  esac
}

record_fault() {
  local column texts=()
  case $1 in
    Fields) printf 'a record has the %s fields %s' "$((${#column_names[@]} + 1))" "$(header)" ;;
    Text) printf 'one of its fields is no UTF-8 text' ;;
    Number) printf 'one of its fields is no whole number: no point, no space, not empty, and a minus sign before the value alone' ;;
    Value) printf 'its value is above 4294967295 or below -4294967295' ;;
    Domain)
      for column in "${!column_names[@]}"; do texts+=("${column_names[column]} takes $(numbers_of "$column")"); done
      printf 'one of its numbers has no bucket: %s' "$(listed "${texts[@]}")"
      ;;
  esac
}
