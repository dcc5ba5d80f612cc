"""Floor cases with their lines written by hand: `letter applet arguments > refusal answer`, in hex where bytes are.
Behind `turns` stand the answers of the nexts that follow, which are accepted."""

from roundcases import ROUNDS
from streams import record
from tagcases import TAGS

ENVELOPE_OF_ROW = "S 0 D307820282819001"
INSTALL_REST = "0000000000000000"


def steps_of(script):
    """A step for each record."""
    for line in filter(None, map(str.strip, script.splitlines())):
        step, _, answers = line.partition(" turns ")
        yield from [step, *(f"N 0 > 0 {answer}" for answer in answers.split())]


def read_case(script):
    """The bytes of a case's records and the lines they are to give."""
    data, lines = b"", []
    for number, step in enumerate(steps_of(script), 1):
        asked, _, expected = step.partition(" > ")
        letter, applet, arguments = (asked.split() + [""])[:3]
        data += record(letter, int(applet), bytes.fromhex(arguments))
        lines.append(f"{number} {letter} {expected}\n")
    return data, "".join(lines)


def menu(*items, qualifier="00"):
    """Hex of a menu of less than 128 bytes without title, from (identifier, text)."""
    shown = "".join(f"8F{len(text) + 1:02X}{identifier:02X}{text.encode().hex().upper()}" for identifier, text in items)
    value = f"81030125{qualifier}820281828500{shown or '8F00'}"
    return f"D0{len(value) // 2:02X}{value}"


def annex_d():
    """Annex D.1 to D.10 of source 000; each state is asked for in a session of its own command."""
    entries = ["Legacy1", "Legacy2", "Legacy3", "Legacy4", "A", "B", "C1", "C2", "D", "E"]
    numbered = {name: (identifier, name) for identifier, name in enumerate(entries, 1)}
    steps = ["P 0 FF > 0 -", "W 0 > 0 -"]

    def install(applet, *wanted):
        pairs = "".join(f"{position:02X}{numbered[name][0]:02X}" for position, name in wanted)
        steps.append(f"I {applet} 0100{len(wanted):02X}07{pairs.ljust(16, '0')} > 0 -")
        for _, name in wanted:
            steps.append(f"M {applet} 00{name.encode().hex()} > 0 {numbered[name][0]:02X}")

    def shown(names):
        steps.extend([f"W 0 > 0 {menu(*(numbered[name] for name in names.split()))}", "R 0 > 0 -", "W 0 > 0 -"])

    install(1, (0, "Legacy1"))
    install(2, (0, "Legacy2"), (0, "Legacy3"), (0, "Legacy4"))
    shown("Legacy1 Legacy2 Legacy3 Legacy4")
    install(3, (3, "A"))
    shown("Legacy1 Legacy2 A Legacy3 Legacy4")
    install(4, (3, "B"))
    shown("Legacy1 Legacy2 B A Legacy3 Legacy4")
    install(5, (2, "C1"), (3, "C2"))
    shown("Legacy1 C1 C2 Legacy2 B A Legacy3 Legacy4")
    install(6, (0, "D"))
    shown("Legacy1 C1 C2 Legacy2 B A Legacy3 Legacy4 D")
    install(7, (20, "E"))
    shown("Legacy1 C1 C2 Legacy2 B A Legacy3 Legacy4 D E")
    steps.extend(["L 1 > 0 -", "L 3 > 0 -"])
    shown("C1 C2 Legacy2 B Legacy3 Legacy4 D E")
    steps.extend(["U 1 > 0 -", "U 3 > 0 -"])
    shown("Legacy1 C1 C2 Legacy2 B A Legacy3 Legacy4 D E")
    steps.append("D 3 > 0 -")
    shown("Legacy1 C1 C2 Legacy2 B Legacy3 Legacy4 D E")
    return "\n".join(steps)


def fullest_menu():
    """Twelve rows of fifteen bytes; the floor's title is empty, so the value is 227 bytes long."""
    installs = [f"I {applet} 0100040F{INSTALL_REST} > 0 -" for applet in (1, 2, 3)]
    entries = [f"M {1 + row // 4} 01{'42' * 15} > 0 {128 + row:02X}" for row in range(12)]
    items = "".join(f"8F10{128 + row:02X}{'42' * 15}" for row in range(12))
    return "\n".join(installs + entries + [f"M 3 01{'42' * 15} > 10 -", "P 0 FF > 0 -",
                                           f"W 0 > 0 D081E38103012580820281828500{items}"])


CASES = {
    "worked example": """
        I 1 050102060001000000000000 > 0 -
        M 1 00436861697273 > 0 01
        M 1 00436861697273 > 0 80
        P 0 FF > 0 -
        W 0 > 0 D01D81030125008202818285008F07014368616972738F0780436861697273
        S 0 D30782020181900180 > 0 -
        N 0 > 0 01""",
    "order form with equal titles": f"""
        I 1 0100030B{INSTALL_REST} > 0 -
        I 2 0100030B{INSTALL_REST} > 0 -
        M 1 005069636B206C697374 > 0 80
        M 1 005069636B206C697374 > 0 81
        M 1 005069636B206C697374 > 0 82
        M 2 004372617465206C6162656C > 0 83
        M 2 004372617465206C6162656C > 0 84
        M 2 004372617465206C6162656C > 0 85
        P 0 FF > 0 -
        W 0 > 0 {menu(*((128 + row, "Pick list" if row < 3 else "Crate label") for row in range(6)))}""",
    "fullest menu": fullest_menu(),
    "positions": f"""
        I 1 010003010001000200030000 > 0 -
        I 2 010003010209030804070000 > 0 -
        M 1 0041 > 0 01
        M 1 0041 > 0 02
        M 1 0041 > 0 03
        M 2 0041 > 0 09
        M 2 0041 > 0 08
        M 2 0041 > 0 07
        M 2 0041 > 10 -
        P 0 FF > 0 -
        W 0 > 0 {menu((1, "A"), (9, "A"), (8, "A"), (7, "A"), (2, "A"), (3, "A"))}""",
    "entry limits and identifiers": f"""
        I 1 0500040F0005000600070000 > 0 -
        I 1 0000040F{INSTALL_REST} > 3 -
        I 2 0000040F{INSTALL_REST} > 4 -
        I 2 0500010F0005000000000000 > 6 -
        I 2 0500010F0080000000000000 > 4 -
        I 2 0500020F0009000900FF0000 > 6 -
        I 2 0500010F0009000900FF0000 > 0 -
        I 3 0500040F{INSTALL_REST} > 0 -
        I 4 0500040F{INSTALL_REST} > 5 -
        I 4 0500050F{INSTALL_REST} > 4 -
        I 4 0500000F00050005FFFFFFFF > 0 -
        I 9 0000FFFF{INSTALL_REST} > 2 -
        D 1 > 0 -
        I 5 0500010F0005000000000000 > 0 -""",
    "texts": f"""
        I 1 0100020F{INSTALL_REST} > 0 -
        M 1 00{"41" * 15} > 0 80
        M 1 00{"41" * 16} > 12 -
        M 1 00 > 12 -
        M 1 0041 > 0 81
        M 1 00{"41" * 16} > 10 -
        M 0 0041 > 2 -
        M 255 0041 > 2 -""",
    "call control": f"""
        I 1 0100000F{INSTALL_REST} > 0 -
        I 2 0100000F{INSTALL_REST} > 0 -
        E 1 0009 > 0 -
        E 1 0009 > 0 -
        L 1 > 0 -
        E 2 0009 > 9 -
        E 2 000C > 0 -
        C 2 0009 > 0 -
        S 0 D40482028281 > 0 - turns -
        U 1 > 0 -
        S 0 D40482028281 > 0 - turns 01 -
        D 1 > 0 -
        E 2 0009 > 0 -
        S 0 D40482028281 > 0 - turns 02 -""",
    "timers": f"""
        I 1 0108000F{INSTALL_REST} > 0 -
        I 2 0101000F{INSTALL_REST} > 0 -
        I 3 0101000F{INSTALL_REST} > 0 -
        T 1 > 0 01
        T 2 > 0 02
        T 1 > 0 03
        T 2 > 13 -
        D 2 > 0 -
        T 1 > 0 02
        T 1 > 0 04
        T 1 > 0 05
        T 1 > 0 06
        T 1 > 0 07
        T 1 > 0 08
        T 3 > 14 -
        T 1 > 13 -
        S 0 D70782028281A40108 > 0 - turns 01 -
        S 0 D70782028281A40109 > 0 - turns -
        L 1 > 0 -
        S 0 D70782028281A40108 > 0 - turns -""",
    "events": f"""
        I 1 0100000F{INSTALL_REST} > 0 -
        E 1 0000 > 7 -
        E 1 0007 > 8 -
        C 1 0008 > 8 -
        E 1 000B > 8 -
        E 1 0013 > 7 -
        E 1 001B > 7 -
        E 1 FFFE > 7 -
        E 1 FFBF > 7 -
        E 1 FF7F > 7 -
        E 1 8000 > 7 -
        C 1 7FFF > 7 -
        E 2 0000 > 2 -
        E 1 FFFF > 0 -
        S 0 C100 > 0 - turns 01
        S 0 7F00 > 0 - turns 01
        S 0 530782028281900180 > 0 - turns 01
        S 0 D000 > 0 - turns 01
        S 0 C10100 > 1 - turns -
        S 0 D6078202828199010D > 0 - turns -""",
    "order of calling": f"""
        I 1 0500000F{INSTALL_REST} > 0 -
        I 2 0500000F{INSTALL_REST} > 0 -
        I 3 0100000F{INSTALL_REST} > 0 -
        I 4 FF00000F{INSTALL_REST} > 0 -
        E 4 0001 > 0 -
        E 1 0001 > 0 -
        E 2 0001 > 0 -
        E 3 0001 > 0 -
        P 0 00 > 0 - turns 03 02 01 04 -
        D 1 > 0 -
        I 1 0500000F{INSTALL_REST} > 0 -
        P 0 00 > 0 - turns 03 02 04 -
        E 1 0001 > 0 -
        P 0 00 > 0 - turns 03 01 02 04 -
        L 2 > 0 -
        P 0 00 > 0 - turns 03 01 04 -""",
    "one-shots": f"""
        I 1 0100000F{INSTALL_REST} > 0 -
        I 2 0100000F{INSTALL_REST} > 0 -
        E 1 007B > 0 -
        E 2 007B > 0 -
        L 1 > 0 -
        O 0 > 0 - turns 02 -
        O 0 > 0 - turns -
        U 1 > 0 -
        E 1 000C > 0 -
        P 0 FF > 0 - turns -
        W 0 > 0 D00C810301050082028182990100
        O 0 > 16 -
        R 0 > 0 -
        O 0 > 0 - turns 01 -
        O 0 > 0 - turns -
        E 1 007B > 0 -
        C 1 007B > 0 -
        O 0 > 0 - turns -""",
    "due marks": f"""
        I 1 0100010F{INSTALL_REST} > 0 -
        M 1 0041 > 0 80
        W 0 > 0 -
        R 0 > 19 -
        P 0 FF > 0 -
        W 0 > 0 {menu((128, "A"))}
        W 0 > 16 -
        E 1 000C > 0 -
        P 0 FF > 0 -
        R 0 > 19 -
        W 0 > 0 {menu((128, "A"))}
        R 0 > 0 -
        W 0 > 0 D00C810301050082028182990100
        R 0 > 0 -
        W 0 > 0 -
        L 1 > 0 -
        W 0 > 0 {menu()}
        R 0 > 0 -
        W 0 > 0 D00B8103010500820281829900
        R 0 > 0 -
        U 1 > 0 -
        L 1 > 0 -
        P 0 FF > 0 -
        W 0 > 0 -
        E 1 000D > 0 -
        W 0 > 0 -
        U 1 > 0 -
        I 2 0100000F{INSTALL_REST} > 0 -
        W 0 > 0 {menu((128, "A"))}
        R 0 > 0 -
        W 0 > 0 D00D81030105008202818299020001
        R 0 > 0 -
        E 2 000C > 0 -
        C 1 000C > 0 -
        W 0 > 0 -
        C 2 000C > 0 -
        W 0 > 0 D00C810301050082028182990101""",
    "envelopes": f"""
        I 1 0101020F{INSTALL_REST} > 0 -
        M 1 0041 > 0 80
        M 1 0141 > 0 81
        T 1 > 0 01
        {ENVELOPE_OF_ROW}80 > 0 - turns 01
        {ENVELOPE_OF_ROW}82 > 0 - turns -
        S 0 D30702028281100181 > 0 - turns 01
        S 0 D309900180020282819500 > 0 - turns -
        S 0 D309900181020282811500 > 0 - turns 01
        S 0 D30A90018102028281950100 > 1 -
        S 0 D303900181 > 1 -
        S 0 D30402028281 > 1 -
        S 0 D309820282819001807F00 > 1 -
        S 0 D3810782028281900180 > 1 -
        S 0 D3817F82028281900180 > 1 -
        S 0 D3078202828190018000 > 1 -
        S 0 D70982028281A400A40101 > 1 -
        S 0 D70B82028281A40101A4020000 > 0 - turns 01
        S 0 D70782028281A40101 > 0 - turns 01
        S 0 D70682018281A40101 > 1 -
        S 0 > 1 -
        S 0 D3 > 1 -
        P 0 > 1 -
        L 1 > 0 -
        {ENVELOPE_OF_ROW}80 > 0 - turns -""",
    **ROUNDS,
    **TAGS,
}
