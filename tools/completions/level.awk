# Reads the lines of `list --letters` or, with `deleted`, those of `undelete --list`. Prints the paths down to one level: those with
# `depth` slashes before their last name. A directory ends in a slash.
deleted && /^the entry at block [0-9]+:/ { next }
deleted { sub(/:.*/, "") }
!deleted && NR == 1 { next }
!deleted {
    end = $1 == "dir" ? "/" : ""
    sub(/^ *[^ ]+ [^ ]+ (raw [0-9]+ [0-9]+ [0-9]+|[^ ]+ [^ ]+) /, "")
    $0 = $0 end
}
{
    names = split($0, name, "/")
    if (names <= depth || names == depth + 1 && name[names] == "") next
    path = name[1]
    for (i = 2; i <= depth + 1; i++) path = path "/" name[i]
    if (names > depth + 1) path = path "/"
    if (!(path in known)) print path
    known[path]
}
