// An evaluator of the task language over a boxed tree whose threads are goroutines, and which keeps sums, holds and
// lines. `peer FILE CORES` prints the first line of what `arachne run --cores CORES` prints.
package main

import (
	"fmt"
	"os"
	"runtime"
	"strconv"
	"strings"
	"sync"
	"sync/atomic"
)

type expr struct {
	form   string
	number uint64
	parts  []*expr
}

type program struct {
	arrays  [][]uint64
	ledgers int
	locks   int
	root    *expr
}

// A thread's name, how often it held each lock, and the threads below it.
type line struct {
	name  []uint64
	holds []uint64
	below []*line
}

// What all threads share.
type shared struct {
	program *program
	sums    []atomic.Uint64
	locks   []sync.Mutex
}

// A thread: its line, how many it has forked, and its environment.
type thread struct {
	shared      *shared
	own         *line
	forks       uint64
	environment []uint64
}

func apply(operation string, a, b uint64) uint64 {
	switch operation {
	case "add":
		return a + b
	case "sub":
		return a - b
	case "mul":
		return a * b
	case "min":
		return min(a, b)
	case "max":
		return max(a, b)
	case "xor":
		return a ^ b
	case "lt":
		if a < b {
			return 1
		}
	case "eq":
		if a == b {
			return 1
		}
	}
	return 0
}

func min(a, b uint64) uint64 {
	if a < b {
		return a
	}
	return b
}

func max(a, b uint64) uint64 {
	if a < b {
		return b
	}
	return a
}

func unit(operation string) uint64 {
	switch operation {
	case "mul":
		return 1
	case "min":
		return ^uint64(0)
	}
	return 0
}

func threadOf(s *shared, name []uint64, environment []uint64) *thread {
	return &thread{s, &line{name: name, holds: make([]uint64, s.program.locks)}, 0, environment}
}

// The next child, with a copy of the environment.
func (t *thread) child() *thread {
	name := make([]uint64, len(t.own.name)+1)
	copy(name, t.own.name)
	name[len(t.own.name)] = t.forks
	t.forks++
	return threadOf(t.shared, name, append([]uint64(nil), t.environment...))
}

// Forks a thread with the next child, and evaluates what is done meanwhile.
func (t *thread) both(childs func(*thread) uint64, during func() uint64) (uint64, uint64) {
	child := t.child()
	ended := make(chan uint64, 1)
	go func() { ended <- childs(child) }()
	own := during()
	value := <-ended
	t.own.below = append(t.own.below, child.own)
	return value, own
}

func (t *thread) value(e *expr) uint64 {
	switch e.form {
	case "num":
		return e.number
	case "var":
		return t.environment[e.number]
	case "len":
		return uint64(len(t.shared.program.arrays[e.number]))
	case "item":
		array, index := t.shared.program.arrays[e.number], t.value(e.parts[0])
		if index < uint64(len(array)) {
			return array[index]
		}
		return 0
	case "if":
		if t.value(e.parts[0]) != 0 {
			return t.value(e.parts[1])
		}
		return t.value(e.parts[2])
	case "let":
		t.environment = append(t.environment, t.value(e.parts[0]))
		value := t.value(e.parts[1])
		t.environment = t.environment[:len(t.environment)-1]
		return value
	case "tally":
		t.shared.sums[e.number].Add(t.value(e.parts[0]))
		return t.value(e.parts[1])
	case "hold":
		t.own.holds[e.number]++
		t.shared.locks[e.number].Lock()
		value := t.value(e.parts[0])
		t.shared.locks[e.number].Unlock()
		return value
	case "fork":
		child, own := t.both(func(c *thread) uint64 { return c.value(e.parts[0]) }, func() uint64 { return t.value(e.parts[1]) })
		bound := len(t.environment)
		t.environment = append(t.environment, child, own)
		value := t.value(e.parts[2])
		t.environment = t.environment[:bound]
		return value
	case "fold":
		from, to, soFar := t.value(e.parts[0]), t.value(e.parts[1]), t.value(e.parts[2])
		bound := len(t.environment)
		for i := from; i < to; i++ {
			t.environment = append(t.environment[:bound], i, soFar)
			soFar = t.value(e.parts[3])
		}
		t.environment = t.environment[:bound]
		return soFar
	case "sweep":
		from, to := t.value(e.parts[1]), t.value(e.parts[2])
		return t.sweep(e, from, to)
	}
	return apply(e.form, t.value(e.parts[0]), t.value(e.parts[1]))
}

// The grain is the sweep's number, the operation the form of its first part.
func (t *thread) sweep(e *expr, from, to uint64) uint64 {
	operation, body := e.parts[0].form, e.parts[3]
	if to <= from || to-from <= e.number {
		soFar, bound := unit(operation), len(t.environment)
		for i := from; i < to; i++ {
			t.environment = append(t.environment[:bound], i)
			soFar = apply(operation, soFar, t.value(body))
		}
		t.environment = t.environment[:bound]
		return soFar
	}
	middle := from + (to-from)/2
	left, right := t.both(func(c *thread) uint64 { return c.sweep(e, from, middle) }, func() uint64 { return t.sweep(e, middle, to) })
	return apply(operation, left, right)
}

// The words of a text; what brackets say is left out, since each form has so many parts.
type words []string

func (w *words) next() string {
	word := (*w)[0]
	*w = (*w)[1:]
	return strings.Trim(word, "()")
}

func (w *words) number() uint64 {
	n, err := strconv.ParseUint(w.next(), 10, 64)
	if err != nil {
		panic(err)
	}
	return n
}

var parts = map[string]int{"item": 1, "if": 3, "let": 2, "tally": 2, "hold": 1, "fork": 3, "fold": 4, "sweep": 3}

func (w *words) expression() *expr {
	e := &expr{form: w.next()}
	count, ok := parts[e.form]
	switch e.form {
	case "num", "var", "len", "item", "tally", "hold":
		e.number = w.number()
	case "fork":
		w.next()
	case "sweep":
		e.parts = append(e.parts, &expr{form: w.next()})
		e.number = w.number()
	default:
		if !ok {
			count = 2
		}
	}
	for i := 0; i < count; i++ {
		e.parts = append(e.parts, w.expression())
	}
	return e
}

func parsed(text string) *program {
	p := &program{}
	for _, row := range strings.Split(text, "\n") {
		w := words(strings.Fields(row))
		if len(w) == 0 {
			continue
		}
		switch w[0] {
		case "arachne":
		case "array":
			w.next()
			var array []uint64
			for len(w) > 0 {
				array = append(array, w.number())
			}
			p.arrays = append(p.arrays, array)
		case "ledgers":
			w.next()
			p.ledgers = int(w.number())
		case "locks":
			w.next()
			p.locks = int(w.number())
		default:
			p.root = w.expression()
			return p
		}
	}
	panic("no expression")
}

// Puts a line and those below it at the end of a list.
func listed(l *line, lines []*line) []*line {
	lines = append(lines, l)
	for _, below := range l.below {
		lines = listed(below, lines)
	}
	return lines
}

func main() {
	text, err := os.ReadFile(os.Args[1])
	if err != nil {
		panic(err)
	}
	cores, err := strconv.Atoi(os.Args[2])
	if err != nil {
		panic(err)
	}
	runtime.GOMAXPROCS(cores)
	p := parsed(string(text))
	s := &shared{p, make([]atomic.Uint64, p.ledgers), make([]sync.Mutex, p.locks)}
	root := threadOf(s, nil, nil)
	value := root.value(p.root)
	_ = listed(root.own, nil)
	fmt.Printf("value %d\n", value)
}
