"""What scripts/named makes of programs with names, where it finds faults, and what the examples compute."""
import os
import subprocess
import unittest

from loading import TOP, load, run_on_terminal

named = load("named")

# An expression, with what it is translated to.
EXPRESSIONS = {
    "7": "(num 7)",
    "(add 1 2 3)": "(add (add (num 1) (num 2)) (num 3))",
    "(let a 1 (let b (add a 1) (sub b a)))": "(let (num 1) (let (add (var 0) (num 1)) (sub (var 1) (var 0))))",
    "(let a 1 (let a 2 a))": "(let (num 1) (let (num 2) (var 1)))",
    "(fork n 1 2 (child own) (sub child own))": "(fork n (num 1) (num 2) (sub (var 0) (var 1)))",
    "(fork x 1 (let a 2 a) (a b) (let c 3 c))": "(fork x (num 1) (let (num 2) (var 0)) (let (num 3) (var 2)))",
    "(fold (k sum) 0 9 1 (add k sum))": "(fold (num 0) (num 9) (num 1) (add (var 0) (var 1)))",
    "(sweep max 2 k 0 9 k)": "(sweep max 2 (num 0) (num 9) (var 0))",
    "# first\n\t(if 1 # yes\r\n 2 3)": "(if (num 1) (num 2) (num 3))",
    "(define two 2) (define (twice x) (mul x two)) (twice 4)": "(mul (num 4) (num 2))",
    "(define (twice x) (add x x)) (twice (add 1 2))": "(let (add (num 1) (num 2)) (add (var 0) (var 0)))",
    "(define (less a b) (sub a b)) (let b 5 (less b (less (add b 1) 2)))": "(let (num 5) (let (let (add (var 0) (num 1)) "
    "(sub (var 1) (num 2))) (sub (var 0) (var 1))))",
    "(define (five) 5) (define six 6) (add (five) six)": "(add (num 5) (num 6))",
    "(define (f array) (fold (lock sum) 0 array 1 lock)) (f 9)": "(fold (num 0) (num 9) (num 1) (var 0))",
    5000 * "0" + "7": "(num 7)",
    str(2**64 - 1): "(num 18446744073709551615)",
    "(define (less a b) (sub a b)) (less (add 1 2) (mul 3 4))": "(let (add (num 1) (num 2)) (let (mul (num 3) (num 4)) "
    "(sub (var 0) (var 1))))",
    "(define (bound x) (let y 1 (add x y))) (let y 7 (bound y))": "(let (num 7) (let (num 1) (add (var 0) (var 1))))",
}

# A text with an @ before the place of its fault, and the fault.
FAULTS = {
    "(add 1 @x)": 8,
    "@arachne 1\nledgers 0\nlocks 0\n(num 1)\n": 2,
    "(let a 1 (add a b)) @(add 1 2)": 2,
    "(fork n @a 2 (a b) 3)": 8,
    "(add 1 @-1)": 8,
    "@; sum\n(add 1 2)": 2,
    "@\ufeff(add 1 2)": 2,
    "(define (f x) @y) (let y 1 (f 2))": 8,
    "(add 1 @18446744073709551616)": 3,
    "(add 1 @" + 5000 * "9" + ")": 3,
    "@(add 1 2": 2,
    "@(add 1 (mul 2 3)\n(define x 1)": 2,
    "@(define (f x) (add x 1)\n(define (g x) x)\n(add (f 1) (g 2)": 2,
    "(add 1 2)@)": 2,
    "(ledger a)\n@": 2,
    "@(sub 1 2 3)": 2,
    "@(add 1)": 2,
    "(@adds 1 2)": 2,
    "@()": 2,
    "(let @7 1 2)": 2,
    "(fold @(k) 0 1 2 3)": 2,
    "(fork @y 1 2 (a b) 3)": 2,
    "(sweep @sub 1 k 0 9 k)": 2,
    "(sweep add @k k 0 9 k)": 2,
    "(array a 1 2) (item @b 0)": 5,
    "(array a 1 2) @a": 2,
    "(array a 1 @x) 0": 2,
    "(array a) (ledger @a) 0": 2,
    "(lock l) (tally @l 1 0)": 6,
    "(ledger l) (hold @l 0)": 7,
    "(define (@add a b) 0) 0": 2,
    "(define (@lock a) 0) 0": 2,
    "(define (f a @a) a) (f 1 2)": 2,
    "(fold (k @k) 0 1 2 3)": 2,
    "(define (f a b) a) @(f 1)": 2,
    "(define (f x) (@g x)) (define (g x) x) (f 1)": 2,
    "(ledger a b c d e f g h i j k l m n o p @q) 0": 10,
    "(lock a b c d e f g h i j k l m n o p @q) 0": 10,
    "".join(f"(array a{k})" for k in range(64)) + "(array @b) 0": 10,
    "(add (hold @gate 1) 1)": 7,
    63 * "(let a 1 " + "(let a @1 0" + 64 * ")": 4,
    "(define (x0 y) y)" + "".join(f"(define (x{k} y) (x{k - 1} y))" for k in range(1, 70)) + "(x69 1)": 4,
    "(define (x0 y) y)" + "".join(f"(define (x{k} y) (add (x{k - 1} y) (x{k - 1} y)))" for k in range(1, 20)) + "(x19 1)": 10,
}


class Named(unittest.TestCase):
    def test_expressions(self) -> None:
        for text, wanted in EXPRESSIONS.items():
            with self.subTest(text):
                self.assertEqual(str(named.Translation(text.encode())).splitlines()[-1], wanted)

    def test_declarations_are_numbered_in_their_order(self) -> None:
        text = b"(array a 3 1) (array b) (ledger x y) (lock z) (tally y (item a 1) (hold z (len b)))"
        lines = ["arachne 1", "array 3 1", "array", "ledgers 2", "locks 1", "(tally 1 (item 0 (num 1)) (hold 0 (len 1)))"]
        self.assertEqual(str(named.Translation(text)).splitlines(), lines)

    def test_each_slip_is_found_where_it_is(self) -> None:
        for marked, number in FAULTS.items():
            with self.subTest(marked):
                with self.assertRaises(named.Fault) as found:
                    named.Translation(marked.replace("@", "").encode())
                self.assertEqual(found.exception.number, number)
                if "@" in marked:
                    self.assertEqual(found.exception.places[0], marked.index("@"), found.exception)

    def test_as_many_nodes_and_levels_as_the_program_takes(self) -> None:
        doubled = "".join(f"(define d{k} (add d{k - 1} d{k - 1}))" for k in range(1, 12))
        nodes = f"(array a) (define d0 (len a)) {doubled} (define (f x y) y)"
        self.assertEqual(len(named.Translation(f"{nodes} (item a d11)".encode()).places), 4096)
        deep = 62 * "(let a 1 " + "1" + 62 * ")"
        for expression in [f"(add 1 2 {deep})", f"(f {deep} 1)"]:
            named.Translation(f"{nodes} {expression}".encode())
        over = {"(item a (item a d11))": 10, f"(add {deep} 1 2)": 4, f"(f (add 1 2) {deep})": 4, f"(f 1 (f {deep} 2))": 4}
        for expression, number in over.items():
            with self.subTest(expression), self.assertRaises(named.Fault) as found:
                named.Translation(f"{nodes} {expression}".encode())
            self.assertEqual(found.exception.number, number)

    def test_many_definitions_take_little_memory(self) -> None:
        text = "".join(f"(define (f{k} x) (add x {k}))" for k in range(20_000)) + "(f7 1)"
        words = ["bash", "-c", 'ulimit -v 1000000; exec "$0"', TOP / "scripts/named"]
        ran = subprocess.run(words, input=text, text=True, capture_output=True)
        self.assertEqual((ran.stdout.splitlines()[-1:], ran.stderr), (["(add (num 1) (num 7))"], ""))

    def test_a_fault_of_the_task_text_is_mapped_back(self) -> None:
        text = b"(lock gate)\n(define (guarded x) (hold gate x))\n(hold gate (add 1 (guarded 2)))\n"
        made = named.Translation(text)
        self.assertEqual(made.body, "(hold 0 (add (num 1) (hold 0 (num 2))))")
        places = (text.index(b"(hold gate x"), text.index(b"(guarded 2"))
        self.assertEqual(made.places_of("fault 9 node 3"), places)
        self.assertEqual(made.places_of(f"fault 4 at {str(made).rindex('(hold')}"), places)
        self.assertIsNone(made.places_of("fault 20"))

    def test_each_node_has_its_place(self) -> None:
        text = b"(define (inner x) (add x x 1))\n(define (outer y) (inner (mul y 2)))\n(sub (outer (if 1 2 3)) 4)"
        made = named.Translation(text)
        self.assertEqual(made.body.count("("), len(made.places))
        wanted = b"(sub|(if|(if|1|2|3)|(mul|(mul|y|2)|(add|(add|x x|x 1|1)|4)".split(b"|")
        at = [it[0] for it in made.places]
        self.assertEqual([text[it : it + len(word)] for it, word in zip(at, wanted, strict=True)], wanted)
        add = text.index(b"(add"), text.index(b"(inner (mul"), text.index(b"(outer (if")
        self.assertEqual(made.places[10], add)

    def shown(self, text: bytes, *words: str) -> str:
        """What a terminal is shown of a fault."""
        ran, told = run_on_terminal([TOP / "scripts/named", *words], input=text, stdout=subprocess.PIPE)
        self.assertEqual((ran.returncode, ran.stdout), (1, b""))
        return told.replace("\r", "")

    def test_a_terminal_is_shown_the_line(self) -> None:
        told = self.shown(b"(let a 1\n  (add a \0b\x1b))\n")
        why = "line 2, column 10: nothing is named '?b?' here"
        self.assertEqual(told, f"fault 8 at 18\n{why}\n    (add a ?b?))\n           ^\n")
        told = self.shown(b"(lock l)\n(define h (hold l 1))\n(hold l h)\n", "--fault", "fault 9 node 1")
        why = "line 2, column 11: within a hold there is no fork, no sweep and no other hold"
        used = "line 3, column 9: the definition is used here"
        self.assertEqual([told.splitlines()[k] for k in (0, 1, 4)], ["fault 9 at 19", why, used])
        told = self.shown(b"(define (f x) (g x))\n(define (h x) (f x))\n(h 1)\n")
        self.assertEqual([it[:14] for it in told.splitlines()[1::3]], ["line 1, column", "line 2, column", "line 3, column"])

    def test_a_text_that_is_too_large_is_not_cut(self) -> None:
        for more, wanted in [(-1, (0, b"")), (0, (1, b"fault 36\n"))]:
            ran = subprocess.run([TOP / "scripts/named"], input=b"7 " + (2**25 - 1 + more) * b"#", capture_output=True)
            self.assertEqual((ran.returncode, ran.stderr), wanted)

    def test_a_full_disk_is_a_fault(self) -> None:
        with open("/dev/full", "w") as full:
            ran = subprocess.run([TOP / "scripts/named"], input=b"7", stdout=full, stderr=subprocess.PIPE)
        self.assertEqual((ran.returncode, ran.stderr), (1, b"fault 38\n"))


class Examples(unittest.TestCase):
    def test_they_compute_what_their_comments_say(self) -> None:
        program = os.environ.get("ARACHNE", TOP / "crates/arachne/out/arachne")
        wanted = {
            "primes": "value 2262",
            "queens": "value 92",
            "matrix_product": "value 51 ledger 0 520 ledger 1 139",
            "histogram": "value 16 ledger 0 3 ledger 1 7 ledger 2 6",
            "tree_search": "value 3 ledger 0 10",
        }
        self.assertEqual({it.stem for it in TOP.glob("examples/*.named")}, set(wanted))
        for name, output in wanted.items():
            with self.subTest(name):
                text = str(named.Translation((TOP / f"examples/{name}.named").read_bytes()))
                if not os.access(program, os.X_OK):
                    self.skipTest("the program is not built")
                ran = subprocess.run([program, "eval"], input=text, text=True, stdout=subprocess.PIPE, check=True)
                self.assertEqual(ran.stdout.partition("threads")[0].split(), output.split())


if __name__ == "__main__":
    unittest.main()
