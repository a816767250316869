# What ./try and ./lightning share; $top is the top of the tree.

# Whether a program is there, and no file that it was made of has changed since its sums were last compared (kept.py): is_unchanged PROGRAM.
# It goes by the time at which a file's entry changed, which no one can set back, so it costs some milliseconds, and may say no where kept.py then says yes.
is_unchanged() {
    [ -x "$1" ] && [ -f "$1.sums" ] && [ -z "$(
        cd "$top" && find crates.txt $(cut -d ' ' -f 1 "$1.sums") \( -name out -o -name data -o -name must-fail \) -prune -o -cnewer "$1.compared" -print -quit 2>&1
    )" ]
}
