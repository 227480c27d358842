# each_damage(LOG): hands every single-bit change and every cut of a log, in hexadecimal, to the function `ask` of the program that this stands before.
function hex(octet) { return substr(digits, int(octet / 16) + 1, 1) substr(digits, octet % 16 + 1, 1) }
function octet_at(text, place) { return (index(digits, substr(text, place, 1)) - 1) * 16 + index(digits, substr(text, place + 1, 1)) - 1 }
function flipped(octet, weight) { return int(octet / weight) % 2 ? octet - weight : octet + weight }
function each_damage(log_text,   place, weight) {
  for (place = 1; place <= length(log_text); place += 2) for (weight = 1; weight < 256; weight *= 2)
    ask(substr(log_text, 1, place - 1) hex(flipped(octet_at(log_text, place), weight)) substr(log_text, place + 2))
  for (place = 1; place <= length(log_text); place += 2) ask(substr(log_text, 1, place - 1))
}
BEGIN { digits = "0123456789abcdef" }
