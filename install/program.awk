# The man page bulhyemik(1), from the texts of `bulhyemik help`: the first of all commands, then one for each.

NR == 1 {
    page(1, "User Commands", "look up shifts in groups of grids")
    show(substr($0, 8), "B")
    request(".SH DESCRIPTION")
    next
}
/^usage: / {
    if (!command)
        request(".SH COMMANDS")
    request(".SS " (command = $3))
}
/^(usage: |       )bulhyemik / { show(substr($0, 8), "B"); next }
/^exit status: / {
    sub(/^exit status: /, "")
    if (!command)
        status = $0
    else
        say("Exit status: " $0 ".")
    next
}
/^$/ { request(".PP"); next }
/^  / { show(substr($0, 3)); next }
{ say($0) }
END {
    request(".SH EXIT STATUS")
    say(status ".")
    see("bulhyemik (3)")
}
