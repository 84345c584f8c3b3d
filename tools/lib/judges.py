"""What is made wrong in the programs `soak` and `bench_objects`, for tools/check/oracles. Each judge of theirs has to refuse it."""

# What a part of soak that is refused says.
REFUSALS = {
    "Alone(1)": "a queue", "Queue(7)": "a queue", "Bursts(64)": "bursts", "Channel(64)": "a channel", "Shut": "a shut queue",
    "Semaphore(64)": "a semaphore", "Room": "a room", "Credit": "a credit", "Files": "a file table",
}
# In a copy, soak reports each refused part and goes on.
GOES_ON = ("parts.rt", "run(rt, alloc, *part, calls)?;",
           "if let Err(fault) = run(rt, alloc, *part, calls) { println!(rt; \"{part:?}: {fault}\")?; }",
           "Ok(ROWS.len())", "Err(Fault::Usage)")
# The judges of soak: one copy for each of these kinds, with one line for each part that has to be refused. A line names the part and a
# file. Each text of the file is followed by the one that comes in its place.
JUDGES = {
    "another number comes out, or the object does less": [
        ("Alone(1)", "queues.rt", "Form::of(number), number)", "Form::of(number), number ^ 1)"),
        ("Queue(7)", "ports.rt", "arrivals.add(item)", "arrivals.add(item.wrapping_add(1))"),
        ("Bursts(64)", "burst_forms.rt", "arrivals.add(item)", "arrivals.add(item.wrapping_add(1))"),
        ("Channel(64)", "channels.rt", "arrivals.add(item)", "arrivals.add(item.wrapping_add(1))"),
        ("Shut", "shuts.rt", "if let Some(_held) = take(rt, queue, seat, Form::of(number)) {",
         "if let Some(held) = take(rt, queue, seat, Form::of(number)) { std::mem::forget(held);"),
        ("Semaphore(64)", "semaphores.rt", "left.add(who)", "left.add(who.wrapping_add(1))"),
        ("Room", "counts.rt", "self.room.release(&mut self.seat, d);", ""),
        ("Credit", "counts.rt", "self.account.debit(&mut self.seat).is_ok()", "true"),
        ("Files", "files.rt", "table.set(seat, 0, FileField::Uses, entry.uses.wrapping_add(1));", ""),
    ],
    "the order is another, or a bound or a write is lost": [
        ("Queue(7)", "queues.rt", "item_of(lane, number)", "item_of(lane, numbers.wrapping_sub(number))"),
        ("Bursts(64)", "bursts.rt", "item_of(self.lane, added.count)", "item_of(self.lane, self.numbers.wrapping_sub(added.count))"),
        ("Channel(64)", "channels.rt", "item_of(self.lane, number)", "item_of(self.lane, self.numbers.wrapping_sub(number))"),
        ("Shut", "shuts.rt", "drop(rest);", "if let Ok(held) = Arc::try_clone(shared) { std::mem::forget(held); } drop(rest);"),
        ("Semaphore(64)", "semaphores.rt", "item_of(lane, number)", "item_of(lane, numbers.wrapping_sub(number))"),
        ("Room", "counts.rt", "Room::open(alloc, BOUND,", "Room::open(alloc, BOUND + 1,", "number % 3 + 1", "number % 3 + 4"),
        ("Credit", "counts.rt", "self.account.credit(&mut self.seat).is_ok()", "self.account.credit(&mut self.seat).is_err()"),
        ("Files", "files.rt", "table.set(seat, 0, FileField::Inode, entry.inode.wrapping_add(1));", "",
         "table.set(seat, 0, FileField::Uses, entry.uses.wrapping_add(1));", ""),
    ],
    "fewer or more are counted": [
        ("Queue(7)", "queues.rt", "work_all(rt, &queue, &crew, numbers, seats)", "work_all(rt, &queue, &crew, numbers / 2, seats)"),
        ("Bursts(64)", "burst_forms.rt", "granted(queue.insert_burst(rt, bundle, items))",
         "granted(queue.insert_burst(rt, bundle, items)).wrapping_mul(2)"),
        ("Channel(64)", "channels.rt", "threads(alloc, ends, &done, numbers)", "threads(alloc, ends, &done, numbers / 2)"),
        ("Shut", "shuts.rt", "seen = seen.with(0);", ""),
        ("Semaphore(64)", "semaphores.rt", "Semaphore::<u64>::open(alloc, START,", "Semaphore::<u64>::open(alloc, START + 1,"),
    ],
    "an item is left, or a close comes twice": [
        ("Queue(7)", "queues.rt", "let Some(mut rest) = close_all(queue, seats)",
         "let mut seats = seats; let _ = queue.insert(rt, &mut seats[0], 7); let Some(mut rest) = close_all(queue, seats)"),
        ("Bursts(64)", "bursts.rt", "crew.expect(queue.delete(",
         "let _ = queue.insert(rt, &mut last, 7); crew.expect(queue.delete("),
        ("Channel(64)", "channels.rt", "let before = self.done.fetch_add(",
         "let _ = self.end.close(rt); let before = self.done.fetch_add("),
    ],
}
# In a copy, bench_objects ends well only if each of its short runs, and each run of its tails but those of no queue, lost an item.
LOSES_ALL = [
    ("case.rt", "times.push(case.once(rt, alloc, items)?)?;",
     "let Err(Fault::Lost) = case.once(rt, alloc, items) else { return Err(Fault::Usage); }; times.push(0)?;"),
    ("tail_table.rt", "if let Some(tail) = case.once(rt, alloc, plan.items)? {\n            tails.push(tail)?;\n        }",
     "match case.once(rt, alloc, plan.items) { Err(Fault::Lost) => {}, Ok(None) => {}, _ => return Err(Fault::Usage), }"),
    ("tail_table.rt", "let mut tails = ", "let tails = "),
    ("command.rt", "let runs = try_each(",
     "measure_tails(rt, rt.alloc(), Plan { rounds: 1, items: 7, tails: true })?; let runs = try_each("),
]
# The handles of bench_objects, each of which says something else than what came out.
HANDLES = [
    ("queue_handle.rt", "Ok((_, item)) => Some(item.number()),", "Ok((_, item)) => Some(item.number().wrapping_add(1)),"),
    ("queue_handle.rt", "return Some(item.number());", "return Some(item.number().wrapping_add(1));"),
    ("channel_handle.rt", "self.receive(rt).ok()", "Some(self.receive(rt).ok()?.wrapping_add(1))"),
    ("channel_handle.rt", "self.receiver.recv(rt).ok()", "Some(self.receiver.recv(rt).ok()?.wrapping_add(1))"),
    ("channel_handle.rt", "notify_one();\n        number", "notify_one();\n        Some(number?.wrapping_add(1))"),
    ("attempts.rt", "Ok((_, number)) => Some(number),", "Ok((_, number)) => Some(number.wrapping_add(1)),"),
    ("attempts.rt", "return Some(number);", "return Some(number.wrapping_add(1));"),
    ("attempts.rt", "self.queue.try_pop(rt)", "Some(self.queue.try_pop(rt)?.wrapping_add(1))"),
    ("attempts.rt", "        Some(number)\n", "        Some(number.wrapping_add(1))\n"),
    ("handover.rt", "if self.handle.down(rt) && self.handle.up(rt) {", "if self.handle.down(rt) && !self.handle.up(rt) {"),
    ("handover.rt", "if theirs.up(rt) && ours.down(rt) {", "if theirs.up(rt) && !ours.down(rt) {"),
    ("entry_handle.rt", "    Some(entry)\n", "    Some(FileEntry { inode: entry.inode.wrapping_add(1), ..entry })\n"),
    ("entry_handle.rt", "Some(*self.entry.read(rt))",
     "let entry = *self.entry.read(rt); Some(FileEntry { inode: entry.inode.wrapping_add(1), ..entry })"),
    ("entry_handle.rt", "Some(*self.entry.lock(rt))",
     "let entry = *self.entry.lock(rt); Some(FileEntry { inode: entry.inode.wrapping_add(1), ..entry })"),
]


def change_soak(copy, kind):
    """Makes a copy's soak wrong in each part of this kind."""
    for file, *texts in [GOES_ON] + [row[1:] for row in JUDGES[kind]]:
        for old, new in zip(texts[::2], texts[1::2]):
            copy.change("crates/soak/src/" + file, old, new)
    copy.script("judges", "cd crates/soak && rt try\n")


def refusals_of(kind):
    """What soak prints then."""
    return [f"{part}: soak: {REFUSALS[part]} did not " for part, *_ in JUDGES[kind]]


def change_bench(copy):
    """Makes each handle of a copy's bench_objects wrong, and the script `judges` fail if each run is refused."""
    for file, old, new in LOSES_ALL + HANDLES:
        copy.change("crates/bench_objects/src/" + file, old, new)
    copy.script("judges", "cd crates/bench_objects && rt try && exit 1\n")
