# What the scripts of this folder share.

# The machine, in a line.
machine() {
    local model
    model=$(sed -n 's/^model name\s*: //p' /proc/cpuinfo | head -n 1)
    echo "${model:-$(uname -m)}, $(nproc) processors, $(awk '/MemTotal/ { printf "%.0f", $2 / 1048576 }' /proc/meminfo) GB"
}

# Puts what it reads in place of the table of that name in README.md.
put_table() {
    local page=bench/README.md made
    made=$(mktemp)
    cat >"$made"
    awk -v name="$1" -v made="$made" '
        $0 == "<!-- end of " name " -->" { inside = 0 }
        !inside
        $0 == "<!-- " name " -->" { inside = 1; print ""; while ((getline line < made) > 0) print line; print "" }
    ' "$page" >"$page.new"
    mv "$page.new" "$page"
    rm -f "$made"
}

# Sets `program` to what is measured and `built` to what that is: the proved program where it stands, else a quick build in
# the given folder.
find_program() {
    program=crates/ca_cli/out/ca_cli built="the proved program"
    if [ ! -x "$program" ]; then
        program=$1/quick built="a quick build"
        tools/quick-build "$program"
    fi
}
