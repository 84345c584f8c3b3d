# Writes the header of the library for C as sections of a man page: its comments as text, its declarations as they are. With `code` set it
# writes any file as it is. Only a comment that begins its line is text. For a function with a body only the first line is written.

function escaped(line) {
    gsub(/\\/, "\\e", line)
    gsub(/-/, "\\-", line)
    return line ~ /^[.']/ ? "\\&" line : line
}

# Writes the lines of a list as they are, indented.
function write_code(lines, count, i) {
    if (count == 0) return
    print ".PP\n.nf"
    for (i = 1; i <= count; i++) print escaped(lines[i])
    print ".fi"
}

# Writes the lines of a comment as paragraphs, and those that begin with a dash as items.
function write_text(lines, count, i, open) {
    print ".PP"
    for (i = 1; i <= count; i++) {
        line = lines[i]
        if (line == "") { print ".PP"; open = 0 }
        else if (line ~ /^- /) { print ".IP \\(bu 2"; print escaped(substr(line, 3)); open = 1 }
        else { sub(/^ +/, "", line); print escaped(line) }
    }
}

# A comment comes before its declarations. For calls the page has the declarations first.
function write_both() {
    if (codes && code_lines[1] ~ /^int32_t/) {
        write_code(code_lines, codes)
        if (texts) { print ".RS"; write_text(text_lines, texts); print ".RE" }
    } else {
        if (texts) write_text(text_lines, texts)
        write_code(code_lines, codes)
    }
    texts = codes = blank = 0
}

# A heading, such as "---- Queues ----".
function write_heading(line) {
    gsub(/^-+ *| *-+$/, "", line)
    print ".SH " toupper(line)
}

code { print escaped($0); next }
/^\/\*/ {
    write_both()
    if (!described) { print ".SH DESCRIPTION"; described = 1 }
    inside = 1
    sub(/^\/\* ?/, "")
}
inside {
    ends = sub(/ *\*\/ *$/, "")
    sub(/^ \* ?/, "")
    if ($0 ~ /^---- /) write_heading($0)
    else text_lines[++texts] = $0
    inside = !ends
    next
}
# What is for C++, the guard of the header, the macros for the sanitizer, and what refers to the version's symbol, are left out.
/^#ifdef __cplusplus/ { of_cpp = 1; next }
of_cpp { if (/^#endif/) of_cpp = 0; next }
/^#(if|ifdef|ifndef|elif|else|endif|include)/ || /__tsan_/ { next }
/FAK_C_KEPT|^extern const char/ { next }
/^#define FAK_(C_(H|THREAD_SANITIZER|GIVES|GETS)|CHANNEL_H)/ { next }
/^}$/ && body { body = 0; next }
body { next }
/^static inline/ { body = 1; sub(/^static inline /, ""); sub(/ \{$/, ";") }
$0 == "" && !codes { next }
$0 == "" { blank = 1; next }
{
    if (blank) code_lines[++codes] = ""
    blank = 0
    code_lines[++codes] = $0
}
END { write_both() }
