# From the driver's lines and the plugin's to a table: a row for each call, with instructions and bytes of stack of both sides.
/^row / {
    split(substr($0, 5), part, / \| /)
    row = part[1]; side = part[2]
    if (!(row in seen)) { seen[row] = 1; rows[++n] = row }
    stack[row, side] = part[3]
    next
}
# a call that runs a string instruction would be counted by its bytes; none does
$2 > 0 { print "table: a string instruction in " row > "/dev/stderr"; wrong = 1; exit 1 }
{ count[row, side] = $1 }
END {
    if (wrong) exit 1
    print "| call | here | the Rust | ratio | stack here | the Rust | ratio |"
    print "|---|---:|---:|---:|---:|---:|---:|"
    for (i = 1; i <= n; i++) {
        r = rows[i]; a = count[r, "rattle"]; b = count[r, "rust"]; s = stack[r, "rattle"]; t = stack[r, "rust"]
        printf "| %s | %d | %s | %s | %d | %s | %s |\n", r, a, b ? b : "", b ? sprintf("%.2f", a / b) : "", s, b ? t : "", b ? sprintf("%.2f", s / t) : ""
    }
}
