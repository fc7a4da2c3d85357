# What bindings/chip.sh and bindings/web/build.sh change in the module of the proved build, beside its target: pointers of 32 bits.
# ptrtoaddr gives no 64 bits there: ptrtoint extends the address with zeros.
s/ = ptrtoaddr ptr / = ptrtoint ptr /
# A tag with a pointer beside it (an Option of a reference) has the pointer at its eighth byte; the other target would look for it at the
# fourth. The two are loaded one by one.
s/^\( *\)\(%[^ ]*\) = load { i8, ptr }, ptr \(%[^ ,]*\).*$/\1\2.tag = load i8, ptr \3\
\1\2.at = getelementptr i8, ptr \3, i64 8\
\1\2.to = load ptr, ptr \2.at\
\1\2.one = insertvalue { i8, ptr } poison, i8 \2.tag, 0\
\1\2 = insertvalue { i8, ptr } \2.one, ptr \2.to, 1/
