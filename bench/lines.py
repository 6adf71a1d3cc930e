"""Gives each instruction of an LLVM module its function's name, for a debugger, so that it is known after the compiler has put functions into one another: lines.py MODULE OUT, both as text."""
import re
import sys

HEAD = """!llvm.dbg.cu = !{!900001}
!llvm.module.flags = !{!900004, !900005}
!900000 = !DIFile(filename: "module", directory: "")
!900001 = distinct !DICompileUnit(language: DW_LANG_C99, file: !900000, isOptimized: true, runtimeVersion: 0, emissionKind: FullDebug)
!900002 = !DISubroutineType(types: !900003)
!900003 = !{null}
!900004 = !{i32 2, !"Debug Info Version", i32 3}
!900005 = !{i32 7, !"Dwarf Version", i32 4}"""
FUNCTION = '!%d = distinct !DISubprogram(name: "%s", linkageName: "%s", scope: !900000, file: !900000, line: 1, type: !900002, spFlags: DISPFlagDefinition | DISPFlagOptimized, unit: !900001)'
PLACE = "!%d = !DILocation(line: 1, scope: !%d)"


def marked(lines):
    notes, number, inside, table = [], 900010, None, False
    for line in lines:
        named = re.match(r'define .*?@("[^"]+"|[\w.$]+)\(', line)
        if named:
            # a function and the one place that all its instructions have
            inside, number, name = number, number + 2, named.group(1).strip('"')
            notes += [FUNCTION % (inside, name, name), PLACE % (inside + 1, inside)]
            line = line.rstrip()[:-1] + "!dbg !%d {" % inside
        elif line == "}":
            inside = None
        elif inside and line.startswith("  ") and line[2] != " ":
            # the lines of a switch up to its bracket are one instruction
            table = line.endswith("[") or (table and line.strip() != "]")
            if not table:
                line += ", !dbg !%d" % (inside + 1)
        yield line
    yield HEAD
    yield from notes


def main(module, out):
    text = open(module).read().split("\n")
    with open(out, "w") as file:
        file.writelines(line + "\n" for line in marked(text))


main(sys.argv[1], sys.argv[2])
