# shellcheck shell=bash
# Sourced by ./bench: writes what was measured into benches/RESULTS.md, between the marks that stand there for it.
page=benches/RESULTS.md

# Says when, on what machine and with which tools something is measured; $1 is the load when it began.
identity() {
    printf '%s\n' "- Date: $(date -u +%F)"
    printf '%s\n' "- Machine: $(sed -n 's/^model name[^:]*: //p' /proc/cpuinfo | head -n 1), $(nproc) cores, Linux $(uname -r)"
    printf '%s\n' "- Load when it began: $1"
    printf '%s\n' "- Kit: $(rt version)"
    printf '%s\n' "- Tools: $(verilator --version | cut -d ' ' -f 1,2), Icarus Verilog $(vvp -V 2>&1 | sed -n '1s/.*version \([^ ]*\).*/\1/p')," \
        "  g++ $(g++ -dumpfullversion), $(rustc --version | cut -d ' ' -f 1,2)"
    printf '\n'
}

# Puts standard input between the marks of a name.
put() {
    local text=$logs/put
    cat >"$text"
    awk -v name="$1" -v text="$text" '
        $0 == "<!-- /" name " -->" { within = 0 }
        !within { print }
        $0 == "<!-- " name " -->" { within = 1; print ""; while ((getline line < text) > 0) print line; print "" }
    ' "$page" >"$logs/page" && cp "$logs/page" "$page"
}
