# Puts expanded documents into one array, and renames the labels of blank nodes by the number of their document: `_:x` of the first one
# becomes `_:1-x`, that of the second `_:2-x`. So no two documents share a blank node. jq -c -n -f apart.jq FILE ..
def apart($number):
  if type == "string" and startswith("_:") then "_:\($number)-" + .[2:]
  elif type == "array" then map(apart($number))
  elif type == "object" and (has("@value") | not) then
    with_entries(.key |= apart($number) | if .key == "@index" then . else .value |= apart($number) end)
  else . end;

[foreach inputs as $document (0; . + 1; . as $number | $document | apart($number) | .[])]
