"""Cases of three-byte tags, written by hand: floor cases."""

NO_IDENTIFIERS = "00" * 8

TAGS = {
    "tags of three bytes": f"""
        I 1 0101010F{NO_IDENTIFIERS} > 0 -
        I 2 0101010F{NO_IDENTIFIERS} > 0 -
        M 1 0041 > 0 80
        M 2 0141 > 0 81
        T 1 > 0 01
        T 2 > 0 02
        E 1 FFFF > 0 -
        E 2 0010 > 0 -
        S 0 D309820282817F00100180 > 0 - turns 01 -
        S 0 D309820282817F80100181 > 0 - turns 02 -
        S 0 D309820282817F01100180 > 1 -
        S 0 D30C820282817F00100181100180 > 0 - turns 02 -
        S 0 D30C820282811001807F00100181 > 0 - turns 01 -
        S 0 D30C820282817F00900181900180 > 0 - turns 01 -
        S 0 D30B820282817F001000900180 > 1 -
        S 0 D30B820282819001817F801500 > 0 - turns 02 -
        S 0 D30C820282819001817F00150100 > 1 -
        S 0 D30B7F80020282817F00100181 > 0 - turns 02 -
        S 0 D30B7F01020282817F00100181 > 1 -
        S 0 D609820282817F00190104 > 0 - turns 02 -
        S 0 D709820282817F80240101 > 0 - turns 01 -
        S 0 D709820282817F01240101 > 1 -
        S 0 C1057F00000105 > 0 - turns 01 -
        S 0 C1037F0000 > 1 -
        S 0 7F00 > 0 - turns 01 -
        S 0 7F005300 > 1 -""",
}
