"""The texts of answers, deliveries, members and audits. A text's characters are its bytes."""


def mark(arrival, count):
    return f"{arrival}/{count}" if count else f"{arrival}"


def words_of(answer):
    """Returns an answer as an audit has it, without a message's body."""
    if answer[0] == "message":
        return f"message {mark(*answer[1:3])}"
    return " ".join(str(word) for word in answer)


def answer(answer):
    return words_of(answer) + (f" {answer[3]}" if answer[0] == "message" else "")


def delivery(it):
    return f"deliver {it.tag} {it.id} {mark(it.arrival, it.count)} {it.body}"


def taken(it, verdict):
    return f"taken {it.tag} {it.id} {mark(it.arrival, it.count)} {verdict}"


def member(name, node, server):
    if server is None:
        return f"{name} {node} down"
    return f"{name} {node} {server.role} term {server.term} last {server.last()} commit {server.commit}"


def command(it):
    if it.kind == "noop":
        return "noop 1"
    if it.kind == "down":
        return f"down {it.session}"
    words = [it.kind, it.session, it.seq]
    if it.kind == "enqueue":
        words.append(len(it.body))
    if it.tag:
        words.append(it.tag)
    if it.ids:
        words.append(",".join(str(number) for number in it.ids))
    return " ".join(str(word) for word in words)


def row(index, entry, told):
    again = " again" if told.gate == "again" else ""
    return f"{index} {entry.term} {command(entry.command)} {words_of(told.answer)}{again}"
