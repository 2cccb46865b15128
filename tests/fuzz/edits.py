"""Light edits of interface files, by a seeded generator."""

NUMBERS = ["0", "1", "2", "3", "00", "010", "08", "0x", "0x10", "0XFF", "1x", "127", "128", "255", "256", "4096", "4097", "65535", "65536", "1048576", "1048577", "2147483647",
           "2147483648", "4294967295", "4294967296", "0xffffffff", "0x100000000", "9223372036854775808", "18446744073709551616",
           "170141183460469231731687303715884105727", "170141183460469231731687303715884105728", "1" + "0" * 60]
MANY = [2, 31, 33, 400, 30_000]
LONGEST = 100_000


def is_name(token):
    return token[0].isalpha() or token[0] == "_"


def another(rng, language, token, tokens):
    """A token to stand in the place of another, mostly of its kind."""
    if token[0].isdigit() and rng.random() < 0.7:
        return rng.choice(NUMBERS)
    if is_name(token) and rng.random() < 0.7:
        return rng.choice([t for t in tokens if is_name(t)])
    return rng.choice([rng.choice(language.words), rng.choice(language.marks), rng.choice(NUMBERS), rng.choice(tokens)])


def edit_tokens(rng, language, text):
    """A text with a token dropped, doubled, exchanged, put in or made another."""
    tokens = language.token.findall(text)
    solid = [k for k, token in enumerate(tokens) if not token.isspace()]
    if not solid:
        return rng.choice(language.words)
    k, other = rng.choice(solid), rng.choice(solid)
    beside = solid[(solid.index(k) + 1) % len(solid)]
    kind = rng.choice(["drop", "double", "beside", "exchange", "another", "another", "put", "glue", "drop some"])
    if kind == "drop":
        tokens[k] = " " if rng.random() < 0.5 else ""
    elif kind == "double":
        tokens[k] += rng.choice(["", " "]) + tokens[k]
    elif kind in ("beside", "exchange"):
        other = beside if kind == "beside" else other
        tokens[k], tokens[other] = tokens[other], tokens[k]
    elif kind == "another":
        tokens[k] = another(rng, language, tokens[k], [tokens[n] for n in solid])
    elif kind == "put":
        tokens[k] = f"{another(rng, language, tokens[k], [tokens[n] for n in solid])} {tokens[k]}"
    elif kind == "glue":
        tokens = [token for n, token in enumerate(tokens) if not (token.isspace() and k <= n <= k + 3)]
    else:
        del tokens[k:k + rng.randint(2, 12)]
    return "".join(tokens)


def edit_alike(rng, language, text):
    """A text with a token exchanged for one of its kind: a number, a word of the language, a name of the text."""
    tokens = language.token.findall(text)
    names = [token for token in tokens if is_name(token) and token not in language.words]
    pools = [names, [token for token in tokens if token in language.types], [token for token in tokens if token[0].isdigit()]]
    pool = rng.choice([pool for pool in pools if pool] or [tokens or [" "]])
    chosen = rng.choice(pool)
    places = [k for k, token in enumerate(tokens) if token == chosen]
    other = rng.choice([rng.choice(names or ["t"]), f"{chosen}1"] if pool is names else language.types if pool is pools[1] else [*NUMBERS[:12], rng.choice(NUMBERS), "-1", *names[:1]])
    for k in places if rng.random() < 0.3 else places and [rng.choice(places)]:
        tokens[k] = other
    return "".join(tokens)


def edit_pieces(rng, _, text):
    """A text with what stands up to a `;`, or between commas, dropped, doubled, moved or exchanged."""
    mark = rng.choice([";", ";", ","])
    pieces = text.split(mark)
    k, other = rng.randrange(len(pieces)), rng.randrange(len(pieces))
    kind = rng.choice(["drop", "double", "move", "exchange"])
    if kind == "exchange":
        pieces[k], pieces[other] = pieces[other], pieces[k]
        return mark.join(pieces)
    piece = pieces[k]
    if kind != "double":
        del pieces[k]
    if kind != "drop":
        pieces.insert(other, piece)
    return mark.join(pieces)


def edit_form(rng, language, text):
    """A text with another form of a declaration."""
    declared = list(language.declared.finditer(text))
    if not declared:
        return edit_tokens(rng, language, text)
    found = rng.choice(declared)
    return text[:found.start()] + rng.choice(language.forms(found, rng.choice(NUMBERS[:24]), rng.choice(MANY))) + text[found.end():]


def edit_octets(rng, _, text):
    """A text with an octet made another, put in or taken out, or with its end cut off."""
    at = rng.randrange(len(text) + 1)
    octet = chr(rng.choice([rng.randrange(256), rng.randrange(32, 127), *b"{};<>[]*/%#0x9 \n\r"]))
    kind = rng.choice(["change", "put", "take", "cut", "case"])
    if kind == "change":
        return text[:at] + octet + text[at + 1:]
    if kind == "put":
        return text[:at] + octet + text[at:]
    if kind == "take":
        return text[:at] + text[at + 1:]
    if kind == "case":
        return text[:at] + text[at:at + 1].swapcase() + text[at + 1:]
    return text[:at]


def edit_lines(rng, _, text):
    """A text with a line dropped, doubled or moved."""
    lines = text.split("\n")
    k, other = rng.randrange(len(lines)), rng.randrange(len(lines))
    line = lines[k]
    kind = rng.choice(["drop", "double", "move"])
    if kind != "double":
        del lines[k]
    if kind != "drop":
        lines.insert(other, line)
    return "\n".join(lines)


def edit_many(rng, language, text):
    """A text with some tokens in a row many times."""
    tokens = language.token.findall(text) or [" "]
    k = rng.randrange(len(tokens))
    some = "".join(tokens[k:k + rng.randint(1, 5)])
    times = min(rng.choice(MANY), max(0, LONGEST - len(text)) // len(some))
    return "".join([*tokens[:k], some * times, *tokens[k:]])


def edited_file(rng, language, text):
    """A text with one to four edits."""
    for _ in range(rng.choice([1, 1, 1, 2, 2, 3, 4])):
        edit = rng.choice([edit_alike, edit_alike, edit_form, edit_pieces, edit_tokens, edit_tokens, edit_octets, edit_lines])
        text = (edit if rng.random() < 0.97 else edit_many)(rng, language, text)[:LONGEST]
    return text
