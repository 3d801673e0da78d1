"""What the protocol page says under Safety, and to drivers and programs that stay: each sentence is shown by a case."""
import functools
import subprocess
import tempfile
import time

from serving import SECONDS, Client, free_port, layout_bus, served

SENSORS = b" 100 INFO 1 FB 8 0\n"
CHANGES = 10_000
LOCKS = 256  # with its own row a session has one change more than may wait for a panel
CLUB = ("port = {port}\n" + layout_bus(3, "GL FB", gl_max=99, fb_ports=13)
        + layout_bus(250, "POWER GA", ga_max=2044, ga_ports=5))


def first_unlike(*steps):
    """The first of (client, command, reply) that is answered otherwise, or None."""
    for client, command, want in steps:
        if (got := client.asks(command)) != want:
            return f"{command} is answered {got!r}, want {want!r}"
    return None


def with_a_running_train(case):
    """The case, handed a client that drives locomotive 3 with two functions, and another client."""
    @functools.wraps(case)
    def runs(program):
        with served(program) as (port, _):
            driver, other = Client(port, "COMMAND"), Client(port, "COMMAND")
            driver.asks("INIT 1 GL 3 N 1 28 2", "SET 1 GL 3 0 12 28 1")
            return case(driver, other)
    return runs


@with_a_running_train
def emergency_stop_without_functions(driver, other):
    return first_unlike((other, "SET 1 GL 3 2 0 0 0 0 0", "418 ERROR list too long"),
                        (other, "GET 1 GL 3", "100 INFO 1 GL 3 0 12 28 1 0"),
                        (other, "SET 1 GL 3 2 0 0", "200 OK"),
                        (other, "GET 1 GL 3", "100 INFO 1 GL 3 2 0 0 1 0"))


@with_a_running_train
def stop_of_a_locked_locomotive(driver, other):
    return first_unlike((driver, "SET 1 LOCK GL 3 0", "200 OK"),
                        (other, "SET 1 GL 3 2 0 0", "414 ERROR device locked"),
                        (other, "GET 1 GL 3", "100 INFO 1 GL 3 0 12 28 1 0"),
                        (other, "SET 1 POWER OFF", "200 OK"),
                        (other, "GET 1 POWER", "100 INFO 1 POWER OFF"),
                        (other, "SET 1 POWER ON", "200 OK"),
                        (other, "GET 1 GL 3", "100 INFO 1 GL 3 0 12 28 1 0"))


@with_a_running_train
def second_init_stops_a_train(driver, other):
    """With other parameters; the driver's next line is the reply to its next command."""
    return first_unlike((other, "INIT 1 GL 3 N 1 28 2", "200 OK"),
                        (other, "GET 1 GL 3", "100 INFO 1 GL 3 0 12 28 1 0"),
                        (other, "INIT 1 GL 3 N 1 28 1", "200 OK"),
                        (driver, "GET 1 POWER", "100 INFO 1 POWER OFF"),
                        (other, "GET 1 GL 3", "100 INFO 1 GL 3 1 0 0 0"))


@with_a_running_train
def session_that_ends_leaves_its_train_driving(driver, other):
    driver.asks("SET 1 LOCK GL 3 0", "TERM 0 SESSION")
    return first_unlike((other, "GET 1 LOCK GL 3", "416 ERROR no data"),
                        (other, "GET 1 GL 3", "100 INFO 1 GL 3 0 12 28 1 0"))


@with_a_running_train
def lock_that_ends_leaves_its_train_driving(driver, other):
    driver.asks("SET 1 LOCK GL 3 1")
    time.sleep(1.2)
    return first_unlike((other, "GET 1 LOCK GL 3", "416 ERROR no data"),
                        (other, "GET 1 GL 3", "100 INFO 1 GL 3 0 12 28 1 0"))


@with_a_running_train
def light_that_undoes_a_stop(driver, other):
    """Unless the program that switches it reads first. Nothing sets a function alone."""
    return first_unlike((driver, "SET 1 GL 3 2 0 0", "200 OK"),
                        (other, "SET 1 GL 3", "419 ERROR list too short"),
                        (other, "SET 1 GL 3 0 12 28 1 1", "200 OK"),
                        (other, "GET 1 GL 3", "100 INFO 1 GL 3 0 12 28 1 1"),
                        (driver, "SET 1 GL 3 2 0 0", "200 OK"),
                        (other, "GET 1 GL 3", "100 INFO 1 GL 3 2 0 0 1 1"),
                        (other, "SET 1 GL 3 2 0 0 1 0", "200 OK"),
                        (other, "GET 1 GL 3", "100 INFO 1 GL 3 2 0 0 1 0"))


def refused_command_is_told_to_nobody_else(program):
    """A panel is sent what was carried out: neither what was refused nor a CHECK."""
    with served(program) as (port, _):
        driver, panel = Client(port, "COMMAND"), Client(port, "INFO")
        driver.asks("SET 1 FB 9 1", "CHECK 1 FB 1 1", "SET 1 FB 1 1")
        told = panel.hears_until(b" 100 INFO 1 FB 1 1\n")
    return None if told.count(b" FB 1 1\n") == 1 and b" FB 9 " not in told else f"a panel was told {told[-200:]!r}"


def turnout_lies_as_the_newest_stamp_says(program):
    """This holds too if both ports are 0 again after a pulse. Both stamps are those of INIT while it was not thrown."""
    script = ("open\nroom 1 1000\nat 1000\nbytes 1 GO\\nINIT 250 GA 5 N\\nINIT 250 GA 6 N\\n\nroom 1 1000\n"
              "at 2000\nbytes 1 SET 250 GA 5 1 1 100\\n\nroom 1 1000\nat 2100\n")
    with tempfile.NamedTemporaryFile("w", suffix=".toml") as config:
        config.write(CLUB.format(port=4303))
        config.flush()
        done = subprocess.run([program, "replay", "--config", config.name], input=script, capture_output=True,
                              text=True, timeout=SECONDS)
    rows = [line.split() for line in done.stdout.partition("\nrows ")[2].splitlines() if " GA " in line]
    stamps = {(row[5], row[6]): (row[0], row[7]) for row in rows if row[1] == "100"}
    got = [stamps[address, port] for address in "56" for port in "01"]
    want = [("1.000", "0"), ("2.100", "0"), ("1.000", "0"), ("1.000", "0")]
    return None if got == want else f"got {got}, want {want}; {done.stderr}"


def overrun_is_no_restart(program):
    """A command session that is kept open goes on after an overrun, and tells by the panel's id that both are of one
    server. It ends with the server."""
    with served(program) as (port, server):
        kept = Client(port, "COMMAND")
        throttle = Client(port, "COMMAND")
        panel = Client(port, "INFO")
        throttle.asks_many([f"INIT 1 GL {address} N 1 28 0" for address in range(1, LOCKS + 1)])
        panel.hears_until(SENSORS)
        if fault := first_unlike((kept, f"GET 0 SESSION {panel.session}", f"101 INFO 0 SESSION {panel.session} INFO")):
            return fault
        for address in range(1, LOCKS + 1):
            throttle.asks(f"SET 1 LOCK GL {address} 0")
            panel.hears_until(b" LOCK GL %d 0 %d\n" % (address, throttle.session))
        throttle.close()
        panel.hears_to_the_end()
        again = Client(port, "INFO")
        if fault := first_unlike((kept, f"GET 0 SESSION {again.session}", f"101 INFO 0 SESSION {again.session} INFO"),
                                 (kept, "GET 1 GL 1", "100 INFO 1 GL 1 1 0 0")):
            return fault
        server.kill()
        try:
            left = kept.hears_to_the_end()
        except ConnectionResetError:
            left = b""
    return None if left == b"" else f"it was told {left!r} at the end of the server"


def panel_that_does_not_read_is_sent_the_past(program):
    """The system keeps far more than 256 changes for it: it finds all of them when it reads again, the oldest first."""
    with served(program) as (port, _):
        throttle, panel = Client(port, "COMMAND"), Client(port, "INFO")
        panel.hears_until(SENSORS)
        for _ in range(CHANGES // 100):
            throttle.asks_many([f"SET 1 POWER ON {turn}" for turn in range(100)])
        throttle.asks("SET 1 FB 8 1")
        told = panel.hears_until(b" 100 INFO 1 FB 8 1\n").splitlines()[-CHANGES - 1:]
    first, count = told[0].split(b" ", 1)[1], sum(b" POWER ON " in line for line in told)
    return None if (first, count) == (b"100 INFO 1 POWER ON 0", CHANGES) else f"it was told {count}, first {first!r}"


def greatest(client, command, most):
    """The greatest number up to `most` with which a command is not answered 412. 1 is."""
    least = 1
    while least < most:
        middle = (least + most + 1) // 2
        if client.asks(command.format(middle)).startswith("412 "):
            most = middle - 1
        else:
            least = middle
    return least


def learned(client):
    """Returns what `check` would print of the layout, learned by GET alone."""
    lines = []
    for bus in range(1, 251):
        power = client.asks(f"GET {bus} POWER")
        if power.startswith("412 "):
            continue
        words = ["bus", bus] + ["POWER"] * power.startswith("100 ")
        has = {group: not client.asks(f"GET {bus} {command}").startswith("422 ")
               for group, command in (("GL", "GL 1"), ("GA", "GA 1 0"), ("FB", "FB 1"))}
        if has["GL"]:
            words += ["GL", greatest(client, f"GET {bus} GL {{}}", 10239)]
        if has["GA"]:
            words += ["GA", greatest(client, f"GET {bus} GA {{}} 0", 2044)]
            words += ["PORTS", greatest(client, f"GET {bus} GA 1 {{}}", 7) + 1]
        if has["FB"]:
            words += ["FB", greatest(client, f"GET {bus} FB {{}}", 4096)]
        lines.append(" ".join(map(str, words)))
    return "\n".join(lines)


def layout_is_learned_by_get(program):
    with served(program, layout=CLUB) as (port, _):
        got = learned(Client(port, "COMMAND"))
    with tempfile.NamedTemporaryFile("w", suffix=".toml") as config:
        config.write(CLUB.format(port=free_port()))
        config.flush()
        check = [program, "check", "--config", config.name]
        done = subprocess.run(check, capture_output=True, text=True, timeout=SECONDS)
    want = done.stdout.partition("\n")[2].strip()
    return None if got == want and want else f"learned {got!r}, checked {want!r}"


def commands_sent_at_once(program: str) -> str | None:
    """Behind GO, and in one write: each has its reply, in their order, and each is carried out."""
    with served(program) as (port, _):
        client = Client(port, None)
        lines, want = ["GO", "INIT 1 GL 3 N 1 28 0"], ["200 OK GO 1", "200 OK"]
        for speed in range(1, 101):
            lines += [f"SET 1 GL 3 1 {speed} 100", "GET 1 GL 3", "HELLO"]
            want += ["200 OK", f"100 INFO 1 GL 3 1 {speed} 100", "410 ERROR unknown command"]
        client.socket.sendall("".join(f"{line}\n" for line in lines).encode())
        got = [client.line().decode().strip().partition(" ")[2] for _ in lines]
    return next((f"{line}: {one!r}, want {two!r}" for line, one, two in zip(lines, got, want) if one != two), None)


SAFETY_CASES = (emergency_stop_without_functions, stop_of_a_locked_locomotive, second_init_stops_a_train,
                session_that_ends_leaves_its_train_driving, lock_that_ends_leaves_its_train_driving,
                light_that_undoes_a_stop, refused_command_is_told_to_nobody_else, turnout_lies_as_the_newest_stamp_says,
                overrun_is_no_restart, panel_that_does_not_read_is_sent_the_past, layout_is_learned_by_get,
                commands_sent_at_once)
