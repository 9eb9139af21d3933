# fault: 0 functions of this name
# The function is not there, as when all of it stands in another.
        .globl  "sha256::compress"
"sha256::compress":
        ret
