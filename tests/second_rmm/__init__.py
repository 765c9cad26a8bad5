"""A second model of RMM 1.0 by registers, in which each check can be left out, and made in another sequence.

It was written from a description of the standard's 23 commands, and has no code in common with the proved RMM.

    facts         constants, words and settings
    pages         the parameter pages
    machine       granules, tables, realms and RECs
    measurement   the RIM
    command       checks, and the groups of them that commands share
    realms, tables, recs    the commands
    guest         the steps of a guest and the exits of its REC
    reading, printing       lines of traces
    bench         the model of an RMM: a machine that answers lines
    judge         the comparison of a line's answer with the model's

    python3 tests/second_rmm answer < TRACE    each line with its answer
    python3 tests/second_rmm check < TRACE     the lines that are not the same
"""
