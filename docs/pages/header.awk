# SPDX-License-Identifier: MIT OR Apache-2.0
# A header as doxygen reads it: each comment documents what is after it, or before it on its line. The
# first one is the front page, `/* ----` begins a group of calls, and a call's name is a link. Aligned lines
# stay as they are, and what is after a list isn't of its last item.
FNR == 1 { next } # the licence
FNR == 2 && !sub(/^ \* /, prefix ? "/** \\file\n * " : "/** \\file */\n/** \\mainpage The header for C and C++\n * ") { sub(/^\/\* /, "/** \\file\n * ") }
sub(/^\/\* ---- /, "") {
    if (group) print "/** @} */"
    title = $0
    sub(/[ .]*[.:,(].*/, "", title)
    group = title
    gsub(/[^A-Za-z0-9]+/, "_", group)
    if (prefix) group = prefix tolower(group) # of a manual page
    print "/** \\addtogroup " group " " title "\n *"
    is_head = 1
    $0 = " * " $0
}
before ~ /^ \* ( |- )/ && /^ \* [^- ]/ { print " *" }
{ while (match($0, /`linker_utils_[a-z0-9_]+`/)) sub(/`linker_utils_[a-z0-9_]+`/, "#" substr($0, RSTART + 1, RLENGTH - 2)) }
is_aligned && !/^ \*   / { print " * ~~~"; is_aligned = 0 }
!is_aligned && /^ \*   / && before ~ /^ \*.*:$/ { print " * ~~~"; is_aligned = 1 }
prefix { sub(/static inline /, "") }
# of a slice the pointer is documented
/^    [^;]*; size_t [a-z_]*_len; \/\* / { at = index($0, " /* "); $0 = "   " substr($0, at) "\n" substr($0, 1, at - 1) }
{ before = $0; sub(/^\/\* /, "/** "); sub(/^    \/\* /, "    /** "); sub(/[;,] \/\* /, "& "); sub(/\/\*  /, "/**< "); print }
is_head && /\*\/$/ { print "/** @{ */"; is_head = 0 }
END { if (group) print "/** @} */" }
