"""What decklist and deckworth print of a deck file, and the loading computer's calls."""

from second.model.calls import figures, worth
from second.model.deck_file import read_deck
from second.model.terms import UNITS, Refusal


def rate_system(deck, system):
    # document 01, 'Refusal numbers': "only then the system's own 1 and 3 to 6"; 7 doesn't arise
    return figures(system.rule, system.a, system.b, deck.survivals, deck.weights, version=deck.version, boards=deck.boards)


def decklist_output(data):
    # document 01, 'Deck file and printing': "Its first line gives n and m, then one line per system"
    deck = read_deck(data)
    if isinstance(deck, Refusal):
        return f"file refused {deck.number}\n"
    lines = [f"deck {len(deck.survivals)} systems {len(deck.systems)}"]
    for place, system in enumerate(deck.systems, 1):
        answer = rate_system(deck, system)
        if isinstance(answer, Refusal):
            lines.append(f"system {place} refused {answer.number}")
        else:
            lines.append(f"system {place} low {answer[0]} high {answer[1]}")
    return "".join(line + "\n" for line in lines)


def worth_of_system(deck, system, fan):
    # document 02, request 06: "Refusals: as for the figures", "then 17"; 7 doesn't arise, as in a rating
    return worth(system.rule, system.a, system.b, fan, deck.survivals, deck.weights, version=deck.version, boards=deck.boards)


def deckworth_output(data):
    # document 02, request 06: "for each system of a deck file and each fan 1 to n, a line of system, fan, lower, upper or the refusal"
    deck = read_deck(data)
    if isinstance(deck, Refusal):
        return f"file refused {deck.number}\n"
    lines = []
    for place, system in enumerate(deck.systems, 1):
        for fan in range(1, len(deck.survivals) + 1):
            answer = worth_of_system(deck, system, fan)
            if isinstance(answer, Refusal):
                lines.append(f"system {place} fan {fan} refused {answer.number}")
            else:
                lines.append(f"system {place} fan {fan} lower {answer[0]} upper {answer[1]}")
    return "".join(line + "\n" for line in lines)


def packed(answer):
    # document 01, 'Deck file and printing': "low times 2^32 plus high; for a refusal, (2^32 - 1)"
    top, bottom = (2 ** 32 - 1, answer.number) if isinstance(answer, Refusal) else answer
    return top * 2 ** 32 + bottom


def bad_system(deck, system):
    # document 01, 'Refusal numbers', row 14
    return not 1 <= system <= len(deck.systems)


def rate(data, system):
    # document 01, 'Refusal numbers': "the loading computer's call then checks 14"
    deck = read_deck(data)
    if isinstance(deck, Refusal):
        return packed(deck)
    if bad_system(deck, system):
        return packed(Refusal(14))
    return packed(rate_system(deck, deck.systems[system - 1]))


def unit_of_file(data):
    """The unit of a file's figures; 0 for a file that is refused."""
    # document 02, request 08: "Conditions two and three read S as the file's own unit"
    deck = read_deck(data)
    return 0 if isinstance(deck, Refusal) else UNITS[deck.version]


def worth_of_file(data, system, fan):
    # document 01, 'Refusal numbers', as in a rating: the file's own, 14, then the system's; document 02, request 06: "then 17"
    deck = read_deck(data)
    if isinstance(deck, Refusal):
        return deck
    if bad_system(deck, system):
        return Refusal(14)
    return worth_of_system(deck, deck.systems[system - 1], fan)
