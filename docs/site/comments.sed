# Makes of a header's comments what Doxygen reads: a comment is of what follows it, or of the member
# or constant before it on its line. A section is a group, which ends at the next.
1s#^/\*#/** @file#
s/^( \*.*)#include/\1\\#include/
/^\/\* ---- /{
    x
    s#.+#/** @} */#p
    s#^$#open#
    x
    s#^/\* ---- (.*) \*/#/** @name \1\n@{ */#
    s#^/\* ---- (.*)#/** @name \1\n@{#
}
s#^( *)/\* #\1/** #
/^\#(if|el|end)/!s#([^ ] +)/\* #\1/**< #
${
    x
    s#.+#/** @} */#
    x
    G
}
