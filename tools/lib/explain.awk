# A session in words: each line, its answer, and what they say. The names of registers and of refusals are read from include/pch_pic.h, the first file; the second
# has the answers, and the lines are read from the file lines beside them.

function digit(c) { return index("0123456789abcdef", c) - 1 }
function hex(text,    i, value) {
    for (i = 1; i <= length(text); i++) value = 16 * value + digit(substr(text, i, 1))
    return value + 0
}
# short TEXT: without leading zeros.
function short(text) { sub(/^0+/, "", text); return "0x" (text == "" ? "0" : text) }

# The header: numbers by name, refusals in words by number, registers by offset.
FNR == NR {
    if (match($0, /^    PCH_PIC_REG_[A-Z0-9_]+ = 0x[0-9a-f]+/)) {
        split(substr($0, 17), parts, / = 0x|[,; ]/)
        registers[hex(parts[2])] = parts[1]
    } else if (match($0, /^    PCH_PIC_[A-Z]+ = [0-9]+/)) {
        split($0, parts, /^ +| = |,/)
        numbers[parts[2]] = parts[3]
    } else if (match($0, /case PCH_PIC_[A-Z]+: return "/)) {
        split($0, parts, /case |: return "|";/)
        why[numbers[parts[2]]] = parts[3]
    }
    next
}

# bits TEXT FIRST: the inputs whose bits are set in a number of hex digits, of which the first is input FIRST.
function bits(text, first,    i, value, bit, list) {
    for (i = length(text); i >= 1; i--) {
        value = digit(substr(text, i, 1))
        for (bit = 0; bit < 4; bit++) {
            if (value % 2) list = list (list == "" ? "" : ", ") (first + 4 * (length(text) - i) + bit)
            value = int(value / 2)
        }
    }
    return list == "" ? "no input" : (list ~ /,/ ? "inputs " : "input ") list
}
# place OFFSET: what stands there.
function place(offset,    at) {
    at = hex(offset)
    if (at >= 256 && at < 320) return "the route of input " (at - 256)
    if (at >= 512 && at < 576) return "the vector of input " (at - 512)
    if (at in registers) return registers[at]
    if ((at - 4) in registers) return registers[at - 4] ", inputs 32 to 63"
    return short(offset) ", where no register begins"
}
# of_bits OFFSET: whether a register there has a bit for each input; from, the input of its first bit.
function of_bits(offset,    at) {
    at = hex(offset)
    from = (at in registers) ? 0 : 32
    return at >= 32 && (at < 256 || at >= 896) && ((at in registers) || ((at - 4) in registers))
}
function width(word) { return word == 1 ? "a Byte of " : word == 2 ? "a Word of " : word == 4 ? "a Dword of " : word == 8 ? "a Qword of " : word " bytes of " }

# asked LINE: what a line asks for.
function asked(line,    words) {
    split(line, words, " ")
    if (line ~ /^l [0-9a-f][0-9a-f] [01]$/) return "a device " (words[3] ? "raises" : "lowers") " line " hex(words[2])
    if (line ~ /^p [0-9a-f][0-9a-f]$/) return "the host polls input " hex(words[2])
    if (line ~ /^r [0-9a-f] [0-9a-f][0-9a-f][0-9a-f][0-9a-f]$/) return "the guest reads " width(words[2]) place(words[3])
    if (line ~ /^w [0-9a-f] [0-9a-f][0-9a-f][0-9a-f][0-9a-f] [0-9a-f]+$/ && length(words[4]) == 16) return "the guest writes " short(words[4]) " to " width(words[2]) place(words[3])
    if (line == "d") return "the host drains what waits"
    return line == "(end)" ? "the end" : "it is no line of a session"
}
# gave LINE ANSWER: what the answer says.
function gave(line, answer,    words, count, i, text) {
    count = split(answer, words, " ")
    split(line, asks, " ")
    if (answer == "-") return "nothing is to be passed on"
    if (answer == "ok") return "done"
    if (answer == "?") return "and is answered with ?"
    if (words[1] == "v") return (asks[1] == "l" && asks[3] == 0 ? "deassert" : "assert") " vector " hex(words[2]) " above"
    if (words[1] == "=") return "it is " short(words[2]) (asks[2] >= 4 && of_bits(asks[3]) ? ": " bits(words[2], from) : "")
    if (words[1] == "drops") return "events dropped since reset: " hex(words[2])
    if (words[1] == "d") {
        for (i = 2; i <= count; i++) text = text (i == 2 ? "" : ", ") (words[i] ~ /^\+/ ? "assert" : "deassert") " vector " hex(substr(words[i], 2))
        return count == 1 ? "nothing waits" : text
    }
    if (answer ~ /^e[0-9]+$/) return "refused with " substr(answer, 2) ": " why[substr(answer, 2)]
    return ""
}

{
    line = "(end)"
    if ((getline text < lines) > 0) { line = text; gsub(/[^ -~]/, "?", line) }
    printf "%-25s   %-19s  %s: %s\n", line, $0, asked(line), gave(line, $0)
}
