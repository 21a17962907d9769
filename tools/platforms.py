"""Random platforms with their scripts, as tools/try-runs and tools/try-schedules run them."""


def access(draw, addresses, scale):
    """One line of a script."""
    address = f"{draw.choice(addresses) + draw.randrange(20) * scale:#x}"
    count = draw.choice([1, 2, 3, 4, 8, 17 if scale == 1 else 16]) * scale
    data = draw.randbytes(count).hex()
    options = draw.choice(["", "", f" sw={draw.randrange(6)}", f" be={draw.choice(['ff', '00', 'ff00', '0000ff'])}"])
    return draw.choice([
        f"write {address} {data}{options}",
        f"read {address} {count}{options}",
        f"write {address} {data}",
        f"read {address} {count}",
        f"read {address} {count}",
        f"add {address} {draw.randrange(2**32)}",
        f"copy {address} {draw.choice(addresses):#x} {count}",
        f"debug {address} {count}",
        f"ignore {address}",
        f"invalidate {address} {draw.choice([1, 8, 64, 2**64 - 1])}",
        f"wait {draw.choice([draw.randrange(50), draw.randrange(50), 2**32])}",
        "sync",
        "fence",
    ])


def script(draw, addresses, scale):
    lines = []
    for _ in range(draw.randrange(1, 16)):
        lines.append(access(draw, addresses, scale))
        if not draw.randrange(4):
            lines += [f"repeat {draw.randrange(1, 20)}", access(draw, addresses, scale), "end"]
    return "\n".join(lines) + "\n"


def memory(draw, name, scale):
    flags = [f"{key} = false\n" for key in ("byte_enables", "streaming") if not draw.randrange(4)]
    flags += draw.choice([[], [], ["read = false\n"], ["write = false\n"]])
    flags += [f"reply = '{draw.choice(['short', 'end_req', 'begin_resp', 'complete'])}'\n"] if draw.randrange(2) else []
    flags += [f"gates = {draw.randrange(1, 5)}\n"] if draw.randrange(2) else ["dmi = false\n"] if not draw.randrange(4) else []
    flags += lanes(draw)
    return f"[[memory]]\nname = '{name}'\nsize = {draw.choice([draw.randrange(1, 100), 128]) * scale}\nlatency = {draw.randrange(40)}\n" + "".join(flags)


def lanes(draw):
    return [f"lanes = {draw.randrange(1, 4)}\n"] if draw.randrange(2) else []


def initiator(draw, name, bind, styles):
    """One initiator, of one of these styles."""
    text, style = f"[[initiator]]\nname = '{name}'\nscript = '{name}.txt'\nbind = '{bind}'\n", draw.choice(styles)
    if style != "fourphase":
        return text + f"style = '{style}'\n"
    answer = draw.choice(["accept", "end_resp", "complete"])
    return text + f"style = 'fourphase'\npool = {draw.randrange(1, 6)}\nresponse = '{answer}'\n"


def router(draw, name):
    text = f"[[router]]\nname = '{name}'\nlatency = {draw.randrange(9)}\naccept = '{draw.choice(['accept', 'end_req'])}'\n"
    return text + "".join(lanes(draw))


def platform(draw, folder, scale):
    """Writes a platform and its scripts: some initiators, a bus or two, some memories. Answers whether all initiators are blocking."""
    memories, count, is_deep = draw.randrange(1, 4), draw.randrange(1, 6), bool(draw.randrange(2))
    styles = draw.choice([["blocking"], ["blocking", "fourphase"], ["blocking", "direct"], ["blocking", "direct", "fourphase"]])
    text = f"version = 1\nquantum = {draw.choice([0, 0, 30, 100, 1000])}\n"
    for k in range(count):
        with open(f"{folder}/i{k}.txt", "w", encoding="ascii") as out:
            out.write(script(draw, [0x100 * scale * (m + 1) for m in range(memories + 1)], scale))
        text += initiator(draw, f"i{k}", "outer" if is_deep else "bus", styles)
    if is_deep:
        text += router(draw, "outer") + f"[[router.window]]\nfirst = {0x40 * scale}\nlast = {0x400 * scale - 1}\nto = 'bus'\nbase = {0x40 * scale}\n"
    text += router(draw, "bus")
    for m in range(memories):
        text += f"[[router.window]]\nfirst = {0x100 * scale * (m + 1)}\nlast = {0x100 * scale * (m + 1) + 0x80 * scale - 1}\nto = 'm{m}'\nbase = {draw.randrange(8)}\n"
    text += "".join(memory(draw, f"m{m}", scale) for m in range(memories))
    with open(f"{folder}/p.toml", "w", encoding="ascii") as out:
        out.write(text)
    return "'fourphase'" not in text and "'direct'" not in text
