# What the handlers that decrypt files share, after common.sh.

# Refuses a path that could lead out of its folder, and one with control characters.
within() {
    case /$1/ in
    //* | *//* | */../* | */./* | *[[:cntrl:]]*) refuse 129 60 "this name is not allowed" ;;
    esac
}

# give_until SECONDS FILE: gives what the file has for so long, or up to the time of its line `expires: ..`, as date(1) reads it, if that is sooner.
give_until() {
    seconds=$1
    end=$(grep -a -m 1 -i '^expires:' "$2" | tr -d '\000' | cut -d : -f 2-)
    if [ -n "$end" ]; then
        then=$(date -d "$end" +%s 2> "$room/errors") || refuse 127 60 "its line 'expires:' has no time"
        left=$((then - $(date +%s)))
        [ "$left" -gt "$seconds" ] || seconds=$left
    fi
    give "$seconds" "$2"
}
