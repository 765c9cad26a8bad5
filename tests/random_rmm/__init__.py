"""Random histories of an RMM: lines of traces, each with the answer of the second model.

A history is made while the second model performs it. So operands are drawn from what is there, and most commands
succeed. Now and then an operand, or a field of a page, is replaced by one that a check is there for.

    performing    the second model, a history, and its lines
    operands      what operands are drawn from, and what replaces them
    tables        steps on granules, realms, tables, pages of data and RIPAS
    recs          steps on RECs, and what a host does after an exit
    guests        steps of guests
    lives         whole histories: a beginning, steps, blocks, a teardown, and readings
"""
