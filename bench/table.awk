# Prints what bench/run measured as Markdown: the table of inputs, and the targets that the inputs at hand can tell of.
# own: the machine's processor, where it is not x86-64

function target(what, wanted, found, good, _) {
    printf "| %s | %s | %s | %s |\n", what, wanted, found, good ? "met" : "missed"
}

function most(what, limit, found, _) {
    target(what, "at most " limit, sprintf(limit < 10 ? "%.2f" : "%.1f", found), found <= limit)
}

function growth(material, _) {
    return reader[material "-64k"] / reader[material "-4k"]
}

BEGIN {
    print "| Input | Bytes | Reader, instructions a byte | Reader, MB/s | Checker, instructions a byte | Checker, MB/s | Go, instructions a byte | Go, MB/s | Ratio |"
    print "|---|--:|--:|--:|--:|--:|--:|--:|--:|"
}

{
    reader[$1] = $3
    checker[$1] = $4
    ratio[$1] = $6 / $8
    printf "| %s | %d | %s | %.1f | %s | %.1f | %s | %.2f | %.1f |\n", $1, $2, $3, $6, $4, $7, $5, $8, ratio[$1]
}

END {
    print "\nRatio: the reader's MB/s to Go's. Times are the processor's, the best of ten runs."
    if (own) print "They are of " own ": the LLVM modules that the static libraries are made of, compiled for it at -O3, and Go built for it."
    else print "They are of x86-64: the static libraries, and Go built for it."
    print "\n| Target | Wanted | Measured | |\n|---|---|--:|---|"
    if ("mixed-60000" in reader) {
        target("times as fast as Go, mixed object", "at least 40", sprintf("%.1f", ratio["mixed-60000"]), 40 <= ratio["mixed-60000"])
        most("instructions a byte, mixed object", 60, reader["mixed-60000"])
        most("instructions a byte, mixed object, checker", 40, checker["mixed-60000"])
    }
    if ("operators-64k" in reader) most("instructions a byte, run of operators", 120, reader["operators-64k"])
    if ("keys-2000" in reader && "array-2000" in reader) most("2,000 keys to the same bytes as an array", 1.5, reader["keys-2000"] / reader["array-2000"])
    split("mixed operators brackets texts keys comments", materials)
    for (i = 1; i in materials; i++)
        if (materials[i] "-64k" in reader && materials[i] "-4k" in reader) most("a byte at 64 KB to one at 4 KB, " materials[i], 1.2, growth(materials[i]))
}
