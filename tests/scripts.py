"""Scripts that are made by code: the greatest and the longest, many sessions at work together, by seeds and by chance."""


def accounts():
    """Session 1 puts 20 accounts in one transaction. Sessions 2 to 5 make ten transfers each: a transaction that reads two neighbours
    and puts both. Session 6 declared another table: it scans that one ten times, and may not read an account."""
    script = "table,account,1\ntable,branch,1\n1,begin\n"
    script += "".join(f"1,put,account,{account},100\n" for account in range(1, 21)) + "1,commit\n"
    for s in range(2, 6):
        for number in range(1, 11):
            a = 1 + (7 * s + 3 * number) % 20
            b = 1 + (7 * s + 3 * number + 1) % 20
            script += f"{s},begin\n{s},get,account,{a}\n{s},get,account,{b}\n"
            script += f"{s},put,account,{a},{100 - number}\n{s},put,account,{b},{100 + number}\n{s},commit\n"
    script += "6,begin,branch\n" + "6,scan,branch,0,100\n" * 10 + "6,get,account,1\n6,commit\n"
    return script.encode()


def long_readers():
    """Four sessions make 200 transactions each, which put one of fifty keys of the first table. Two more stay at a snapshot of all
    tables and two at one of the second table, which these have put a row in: each of the four reads one record 300 times."""
    script = "table,t,1\ntable,u,1\n"
    for number in range(200):
        for session in range(1, 5):
            script += f"{session},begin\n{session},put,t,{number % 50},{number}\n{session},commit\n"
    script += "5,begin\n6,begin\n7,begin,u\n8,begin,u\n7,put,u,1,7\n8,put,u,2,8\n"
    script += "5,get,t,7\n6,get,t,8\n7,get,u,1\n8,get,u,2\n" * 300
    return (script + "5,commit\n6,commit\n7,commit\n8,commit\n").encode()


def rounds_beside_a_reader():
    """A reader stays at the commit of a hundred keys. A hundred times each of them is put once more, before a round of the interval
    collector."""
    script = "table,t,1\n1,begin\n"
    for count in range(101):
        script += "".join(f"1,put,t,{key},{count}\n" for key in range(100))
        script += "3,gc,interval\n" if count else "1,commit\n2,begin\n"
    return (script + "2,get,t,7\n2,commit\n").encode()


def own_tables():
    """64 tables and 64 sessions, each of which declares one of its own. Session 1 stays at the first snapshot, and sees nothing of the
    other tables, which are written three times while it stays, with a round of each collector between."""
    script = "".join(f"table,t{table},1\n" for table in range(1, 65)) + "1,begin,t1\n1,put,t1,5,0\n"
    for row in range(3):
        for s in range(2, 65):
            script += f"{s},begin,t{s}\n{s},put,t{s},5,{row}\n{s},get,t{s},5\n{s},get,t1,5\n{s},commit\n"
        script += "1,gc,group\n2,gc,table\n3,gc,interval\n"
    return (script + "1,get,t1,5\n1,get,t64,5\n1,commit\n1,gc,table\n").encode()


def many_keys(keys):
    """Session 1 puts so many keys in one transaction, and then reads the last one."""
    return ("table,t,1\n1,begin\n" + "".join(f"1,put,t,{key},7\n" for key in range(keys)) + f"1,commit\n1,get,t,{keys - 1}\n").encode()


def many_versions(versions):
    """A reader stays at the first version of a key, which is put so many times, and reads it when all is put."""
    return ("table,t,1\n1,put,t,5,0\n2,begin\n" + "".join(f"1,put,t,5,{row}\n" for row in range(1, versions)) + "2,get,t,5\n2,commit\n").encode()


def puts(times, value):
    """Eight sessions put 50 keys each, all different, so many times."""
    script = "table,t,1\n"
    for time in range(times):
        for i in range(50):
            script += "".join(f"{session},put,t,{session}{i},{value(time, i)}\n" for session in range(1, 9))
    return script.encode()


def readers_in_parts():
    """Sessions 5 to 8 put 20 keys each, in a transaction, and then read all keys by cursors: session 5 in fetches of one row, and so on
    to session 8 in fetches of four. Each opens two cursors, and leaves the second one open. Meanwhile sessions 1 to 4 put the same
    keys, five times each, and ask for rounds."""
    script = "table,t,1\n"
    for reader in range(5, 9):
        script += f"{reader},begin\n" + "".join(f"{reader},put,t,{reader}{key},0\n" for key in range(10, 30))
        script += f"{reader},commit\n{reader},open,t,0,999\n"
    for number in range(100):
        key = 10 + number % 20
        for writer in range(1, 5):
            script += f"{writer},put,t,{writer + 4}{key},{number}\n{writer + 4},fetch,{writer}\n"
        if number == 50:
            script += "5,close\n6,close\n7,close\n8,close\n"
            script += "5,open,t,0,999\n6,open,t,0,999\n7,open,t,0,999\n8,open,t,0,999\n"
        if key == 20:
            script += "1,gc,interval\n2,gc,table\n3,gc,group\n"
    return script.encode()


class Chance:
    """Numbers by chance, as crates/hg_seed/specs/Generator.antt draws them for the script of a seed."""

    def __init__(self, seed):
        self.state = seed

    def below(self, bound):
        """Returns the next number below a bound."""
        self.state = (self.state * 6364136223846793005 + 1442695040888963407) % 2**64
        return (self.state >> 33) % bound


def made(seed):
    """Returns the script of a seed, a second reading of crates/hg_seed/specs/Generator.antt."""
    draw = Chance(seed).below
    script = ["table,a,1\ntable,b,2\ntable,c,1\n"]
    within = [False] * 9
    outside_words = ["begin"] * 6 + ["begin,c"] * 2 + ["get"] * 2 + ["put"] * 3 + ["del", "scan", "gc"]
    inside_words = ["put"] * 5 + ["get"] * 3 + ["del", "scan"] + ["commit"] * 4 + ["rollback", "gc"]
    for number in range(16000):
        session = number % 8 + 1
        word = (inside_words if within[session] else outside_words)[draw(16)]
        if word in ("begin", "begin,c", "commit", "rollback"):
            within[session] = not within[session]
        elif word == "gc":
            word += "," + ("group", "table", "interval")[draw(3)]
        else:
            table = draw(3)
            key = draw(256)
            values = [draw(1000) for _ in range(2 if table == 1 else 1)] if word == "put" else [key + 15] if word == "scan" else []
            word = ",".join([word, "abc"[table], str(key), *map(str, values)])
        script.append(f"{session},{word}\n")
    return "".join(script).encode()


def head(version):
    """Returns the first records of a script with a table of a number and a text, and in version 1 of two numbers."""
    return b"version,2\ntable,t,nt\n" if version == 2 else b"table,t,2\n"


def any_text(draw):
    """Returns a text in quotes, of bytes that call for quotes and of others."""
    text = b""
    for _ in range(max(draw(66) - 1, 0)):
        which = draw(8)
        text += (b'""', b"\n", b"\r", b",")[which] if which < 4 else bytes([draw(34)])
    return b'"' + text + b'"'


def any_script(version, draw):
    """Returns a script of puts and deletions of eight keys, in and outside of transactions."""
    script = head(version)
    within = False
    for _ in range(16):
        which = draw(8)
        if which == 0:
            ends_by = draw(2)
            script += b"1,begin\n" if not within else b"1,rollback\n" if ends_by else b"1,commit\n"
            within = not within
        elif which == 1:
            script += b"1,del,t,3\n"
        else:
            key = draw(8)
            script += b"1,put,t,%d,-1%d," % (key, draw(1000)) + (any_text(draw) if version == 2 else b"7") + b"\n"
    return script + b"1,commit\n" * within
