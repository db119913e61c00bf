"""What `check` judges and `play` prints, by the definitions of docs/: histories, four slots, matrix, composed board."""


class TooManySteps(Exception):
    """A step has no operation left."""

    def __init__(self, position):
        super().__init__(position)
        self.position = position


class Operation:
    """An operation of a played schedule. A cell's operation has one slot, a board's one for each access, a matrix's none."""

    def __init__(self, who, kind, begin, item, slots):
        self.who, self.kind, self.begin, self.end = who, kind, begin, None
        self.item, self.stamp, self.slots = item, None, [None] * slots


# Orders


def verdict(opening, limit, ops, order):
    if not is_listing(ops, order):
        return "unlawful listing"
    if not keeps_precedence(ops, order):
        return "unlawful precedence"
    if not reads_latest(opening, ops, order):
        return "unlawful reading"
    if not refuses_lawfully(limit, ops, order):
        return "unlawful limit"
    return "lawful"


def is_listing(ops, order):
    if any(place >= len(ops) for place in order):
        return False
    for place, each in enumerate(ops):
        times = order.count(place)
        if each["end"] is not None:
            if times != 1:
                return False
        elif times > (1 if each["kind"] == "write" else 0):
            return False
    return True


def keeps_precedence(ops, order):
    for at, later in enumerate(order):
        for earlier in order[:at]:
            # `later` stands after `earlier`, so it must not precede it
            if ops[later]["end"] is not None and ops[later]["end"] < ops[earlier]["begin"]:
                return False
    return True


def reads_latest(opening, ops, order):
    latest = opening
    for place in order:
        item = ops[place]["record"]
        if item is None:
            return False
        if ops[place]["kind"] == "write":
            latest = item
        elif item != latest:
            return False
    return True


def refuses_lawfully(limit, ops, order):
    writes = 0
    for place in order:
        if ops[place]["kind"] == "write":
            writes += 1
        elif ops[place]["kind"] == "refused" and writes < limit:
            return False
    return True


# The four-slot cell, event by event


class Cell:
    """Four slots of a safe register each, and the control bits."""

    def __init__(self, opening, noise):
        self.noise = noise
        self.latest, self.reading, self.bits, self.remembered = 0, 0, [0, 0], [0, 0]
        self.slots = [opening] * 4
        self.write_event, self.read_event = 0, 0
        self.pair, self.index, self.item = 0, 0, None
        self.read_pair, self.read_index = 0, 0
        self.writing, self.met, self.reads_slot = None, False, None

    def write(self, item):
        """Makes the writer's next event, and gives its number, 1 to 5."""
        self.write_event = self.write_event % 5 + 1
        if self.write_event == 1:
            self.item = item
            self.pair = 1 - self.reading
            self.index = 1 - self.remembered[self.pair]
        elif self.write_event == 2:
            self.writing = self.write_slot()
            if self.reads_slot == self.writing:
                self.met = True
        elif self.write_event == 3:
            self.slots[self.writing] = self.item
            self.writing = None
        elif self.write_event == 4:
            self.bits[self.pair] = self.remembered[self.pair] = self.index
        else:
            self.latest = self.pair
        return self.write_event

    def read(self):
        """Makes the reader's next event, and gives its number and, at the last, the answer."""
        self.read_event = self.read_event % 5 + 1
        answer = None
        if self.read_event == 1:
            self.read_pair = self.latest
        elif self.read_event == 2:
            self.reading = self.read_pair
        elif self.read_event == 3:
            self.read_index = self.bits[self.read_pair]
        elif self.read_event == 4:
            self.reads_slot = self.read_slot()
            self.met = self.writing == self.reads_slot
        else:
            answer = self.noise if self.met else self.slots[self.reads_slot]
            self.reads_slot = None
        return self.read_event, answer

    def write_slot(self):
        return 2 * self.pair + self.index

    def read_slot(self):
        return 2 * self.read_pair + self.read_index


class CellAccess:
    """A cell of a composed board: an access is five steps."""

    steps = 5

    def __init__(self, opening, noise):
        self.cell = Cell(opening, (noise_stamp(), noise))

    def write(self, posted, tell_slot):
        if self.cell.write(posted) == 1:
            tell_slot(self.cell.write_slot())

    def read(self, tell_slot):
        event, answer = self.cell.read()
        if event == 3:
            tell_slot(self.cell.read_slot())
        return answer


class AtomicAccess:
    """A cell of a matrix: an access is one step."""

    steps = 1

    def __init__(self, opening, _noise):
        self.posted = opening

    def write(self, posted, _tell_slot):
        self.posted = posted

    def read(self, _tell_slot):
        return self.posted


def noise_stamp():
    return (2**64 - 1, 0)


# Players


def play_cell(opening, noise, writes, reads, steps):
    cell, ops, made = Cell(opening, noise), [], {"w": 0, "r": 0}
    left = {"w": len(writes), "r": reads}
    refuse_too_many(steps, lambda side: 5 * left[side])
    now, number, filled, listed = {}, {}, {}, set()
    for at, side in enumerate(steps):
        if made[side] % 5 == 0:
            item = writes[made[side] // 5] if side == "w" else None
            now[side] = Operation("wr".index(side), "write" if side == "w" else "read", at, item, 1)
            ops.append(now[side])
        each = now[side]
        place = ops.index(each)
        if side == "w":
            event = cell.write(each.item)
            each.slots[0] = cell.write_slot()
            if event == 3:
                filled[cell.write_slot()] = place
            if event == 4:
                listed.add(place)
        else:
            event, answer = cell.read()
            if event == 3:
                each.slots[0] = cell.read_slot()
            if event == 4:
                # the source: the last write of this slot whose record was in it before
                number[place] = filled.get(each.slots[0])
            if event == 5:
                each.item = answer
                listed.add(place)
        made[side] += 1
        if made[side] % 5 == 0:
            each.end = at
    reads_of = lambda source: [p for p in sorted(listed) if ops[p].kind == "read" and number[p] == source]
    order = reads_of(None)
    for place in sorted(p for p in listed if ops[p].kind == "write"):
        order += [place] + reads_of(place)
    return ops, order


def refuse_too_many(steps, allowed, first=0):
    counts = {}
    for at, who in enumerate(steps):
        counts[who] = counts.get(who, 0) + 1
        if counts[who] > allowed(who):
            raise TooManySteps(first + at)


def play_term(access, opening, noise, term, first, place):
    """The operations and the order of one term, and the record with which the next one opens."""
    limit, plans, steps = term["limit"], term["plans"], term["steps"]
    n, width = len(plans), access.steps
    zero = ((0, 0), opening)
    cells = {(i, j): access(zero, noise) for i in range(n) for j in range(n) if i != j}
    own, made, ops, now, seen = [zero] * n, [0] * n, [], {}, {}
    for at, i in enumerate(steps):
        length = 2 * (n - 1) * width
        turn, step = divmod(made[i], length)
        if step == 0:
            wish = plans[i][turn]
            item, kind = (None, "read") if wish == "read" else (wish, "write")
            now[i] = Operation(i, kind, first + at, item, 2 * (n - 1))
            seen[i] = own[i]
            ops.append(now[i])
        each, number = now[i], step // width
        others = [j for j in range(n) if j != i]
        tell = lambda slot: each.slots.__setitem__(number, slot)
        if number < n - 1:
            answer = cells[others[number], i].read(tell)
            if answer is not None and answer[0] > seen[i][0]:
                seen[i] = answer
            if step == (n - 1) * width - 1:
                choose(each, seen[i], limit, i, own)
        else:
            cells[i, others[number - (n - 1)]].write(own[i], tell)
        made[i] += 1
        if made[i] % length == 0:
            each.end = first + at
            if each.kind != "write":
                each.item = own[i][1]
    greatest = own[0]
    for posted in own[1:]:
        if posted[0] > greatest[0]:
            greatest = posted
    return ops, term_order(ops, place), greatest[1]


def choose(each, seen, limit, i, own):
    if each.kind == "write" and seen[0][0] < limit:
        own[i] = ((seen[0][0] + 1, i), each.item)
    else:
        own[i] = seen
        if each.kind == "write":
            each.kind, each.item = "refused", None
    each.stamp = own[i][0]


def term_order(ops, place):
    listed = [k for k, each in enumerate(ops) if each.stamp and (each.kind == "write" or each.end is not None)]
    listed.sort(key=lambda k: (ops[k].stamp, ops[k].kind != "write", ops[k].begin))
    return [place + k for k in listed]


def play_terms(access, opening, noise, terms):
    first = 0
    for term in terms:
        allowed = lambda i: len(term["plans"][i]) * 2 * (len(term["plans"]) - 1) * access.steps
        refuse_too_many(term["steps"], allowed, first)
        first += len(term["steps"])
    first, ops, order, begins = 0, [], [], []
    for term in terms:
        begins.append(len(ops))
        more, listed, opening = play_term(access, opening, noise, term, first, len(ops))
        ops += more
        order += listed
        first += len(term["steps"])
    return ops, order, begins
