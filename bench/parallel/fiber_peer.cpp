// An evaluator of the task language over a boxed tree whose threads are fibers of Boost.Fiber, by its work-stealing
// scheduler, and which keeps sums, holds and lines. A fiber runs at once, and whoever forked it may be stolen.
// `peer FILE CORES` prints the first line of what `arachne run --cores CORES` prints.
#include <atomic>
#include <boost/fiber/all.hpp>
#include <cstdint>
#include <cstdio>
#include <fstream>
#include <iostream>
#include <map>
#include <memory>
#include <sstream>
#include <stdexcept>
#include <string>
#include <thread>
#include <vector>

namespace fibers = boost::fibers;
using Number = std::uint64_t;

enum class Form { Num, Var, Len, Item, If, Let, Tally, Hold, Fork, Fold, Sweep, Add, Sub, Mul, Min, Max, Xor, Lt, Eq };

struct Expr {
    Form form;
    Number number = 0;
    Form operation = Form::Add;
    std::vector<std::unique_ptr<Expr>> parts;
};

struct Program {
    std::vector<std::vector<Number>> arrays;
    std::size_t ledgers = 0, locks = 0;
    std::unique_ptr<Expr> root;
};

// What all threads share.
struct Shared {
    explicit Shared(const Program& of) : program(of), sums(of.ledgers), locks(of.locks) {}

    const Program& program;
    std::vector<std::atomic<Number>> sums;
    std::vector<fibers::mutex> locks;
};

// A thread's name, how often it held each lock, and the threads below it.
struct Line {
    std::vector<Number> name, holds;
    std::vector<std::unique_ptr<Line>> below;
};

Number apply(Form operation, Number a, Number b) {
    switch (operation) {
        case Form::Add: return a + b;
        case Form::Sub: return a - b;
        case Form::Mul: return a * b;
        case Form::Min: return a < b ? a : b;
        case Form::Max: return a < b ? b : a;
        case Form::Xor: return a ^ b;
        case Form::Lt: return a < b;
        case Form::Eq: return a == b;
        default: throw std::logic_error("no operation");
    }
}

Number unit(Form operation) { return operation == Form::Mul ? 1 : operation == Form::Min ? ~Number(0) : 0; }

// Takes its environment back to the length that it had.
class Scope {
public:
    explicit Scope(std::vector<Number>& of) : environment(of), length(of.size()) {}
    ~Scope() { environment.resize(length); }

private:
    std::vector<Number>& environment;
    std::size_t length;
};

// A thread: its line, how many it has forked, and its environment.
class Thread {
public:
    Thread(Shared& with, std::vector<Number> name, std::vector<Number> bound)
        : line(new Line{std::move(name), std::vector<Number>(with.program.locks), {}}),
          shared(with),
          environment(std::move(bound)) {}

    Number value(const Expr& e) {
        switch (e.form) {
            case Form::Num: return e.number;
            case Form::Var: return environment[e.number];
            case Form::Len: return shared.program.arrays[e.number].size();
            case Form::Item: return item(shared.program.arrays[e.number], value(*e.parts[0]));
            case Form::If: return value(*e.parts[value(*e.parts[0]) != 0 ? 1 : 2]);
            case Form::Tally: shared.sums[e.number] += value(*e.parts[0]); return value(*e.parts[1]);
            case Form::Let: return with({value(*e.parts[0])}, *e.parts[1]);
            case Form::Hold: return hold(e);
            case Form::Fork: return fork(e);
            case Form::Fold: return fold(e);
            case Form::Sweep: {
                Number from = value(*e.parts[0]), to = value(*e.parts[1]);
                return sweep(e, from, to);
            }
            default: {
                Number first = value(*e.parts[0]);
                return apply(e.form, first, value(*e.parts[1]));
            }
        }
    }

    std::unique_ptr<Line> line;

private:
    static Number item(const std::vector<Number>& array, Number index) {
        return index < array.size() ? array[index] : 0;
    }

    Number with(std::initializer_list<Number> more, const Expr& body) {
        Scope scope(environment);
        environment.insert(environment.end(), more);
        return value(body);
    }

    Number hold(const Expr& e) {
        line->holds[e.number]++;
        std::unique_lock<fibers::mutex> held(shared.locks[e.number]);
        return value(*e.parts[0]);
    }

    // Forks a thread, which has a copy of the environment, and evaluates what is done meanwhile.
    template <class Child, class Own>
    std::pair<Number, Number> both(Child child_value, Own own_value) {
        auto name = line->name;
        name.push_back(forks++);
        Thread child(shared, std::move(name), environment);
        Number ended = 0;
        fibers::fiber fiber(fibers::launch::dispatch, std::allocator_arg, fibers::fixedsize_stack(32 * 1024),
                            [&] { ended = child_value(child); });
        Number own = own_value();
        fiber.join();
        line->below.push_back(std::move(child.line));
        return {ended, own};
    }

    Number fork(const Expr& e) {
        auto values = both([&](Thread& child) { return child.value(*e.parts[0]); }, [&] { return value(*e.parts[1]); });
        return with({values.first, values.second}, *e.parts[2]);
    }

    Number fold(const Expr& e) {
        Number from = value(*e.parts[0]), to = value(*e.parts[1]), so_far = value(*e.parts[2]);
        for (Number i = from; i < to; i++) so_far = with({i, so_far}, *e.parts[3]);
        return so_far;
    }

    // The grain is the sweep's number.
    Number sweep(const Expr& e, Number from, Number to) {
        if (to <= from || to - from <= e.number) {
            Number so_far = unit(e.operation);
            for (Number i = from; i < to; i++) so_far = apply(e.operation, so_far, with({i}, *e.parts[2]));
            return so_far;
        }
        Number middle = from + (to - from) / 2;
        auto values = both([&](Thread& child) { return child.sweep(e, from, middle); },
                           [&] { return sweep(e, middle, to); });
        return apply(e.operation, values.first, values.second);
    }

    Shared& shared;
    Number forks = 0;
    std::vector<Number> environment;
};

// The words of a text; what brackets say is left out, since each form has so many parts.
class Words {
public:
    explicit Words(const std::string& row) : words(row) {}

    std::string next() {
        std::string word;
        words >> word;
        word.erase(0, word.find_first_not_of('('));
        word.erase(word.find_last_not_of(')') + 1);
        return word;
    }

    bool is_empty() { return (words >> std::ws).eof(); }

    Number number() { return std::stoull(next()); }

    std::unique_ptr<Expr> expression() {
        static const std::map<std::string, std::pair<Form, int>> forms = {
            {"num", {Form::Num, 0}}, {"var", {Form::Var, 0}}, {"len", {Form::Len, 0}}, {"item", {Form::Item, 1}},
            {"if", {Form::If, 3}}, {"let", {Form::Let, 2}}, {"tally", {Form::Tally, 2}}, {"hold", {Form::Hold, 1}},
            {"fork", {Form::Fork, 3}}, {"fold", {Form::Fold, 4}}, {"sweep", {Form::Sweep, 3}}, {"add", {Form::Add, 2}},
            {"sub", {Form::Sub, 2}}, {"mul", {Form::Mul, 2}}, {"min", {Form::Min, 2}}, {"max", {Form::Max, 2}},
            {"xor", {Form::Xor, 2}}, {"lt", {Form::Lt, 2}}, {"eq", {Form::Eq, 2}}};
        auto [form, count] = forms.at(next());
        auto e = std::make_unique<Expr>();
        e->form = form;
        if (form == Form::Fork) next();
        if (form == Form::Sweep) e->operation = forms.at(next()).first;
        bool is_numbered = form == Form::Tally || form == Form::Hold || form == Form::Sweep;
        if (form <= Form::Item || is_numbered) e->number = number();
        for (int i = 0; i < count; i++) e->parts.push_back(expression());
        return e;
    }

private:
    std::istringstream words;
};

Program parsed(std::istream& text) {
    Program program;
    for (std::string row; std::getline(text, row);) {
        Words words(row);
        if (words.is_empty()) continue;
        auto head = Words(row).next();
        if (head == "arachne") continue;
        if (head == "array") {
            words.next();
            program.arrays.emplace_back();
            while (!words.is_empty()) program.arrays.back().push_back(words.number());
        } else if (head == "ledgers" || head == "locks") {
            words.next();
            (head == "locks" ? program.locks : program.ledgers) = words.number();
        } else {
            program.root = words.expression();
            return program;
        }
    }
    throw std::runtime_error("no expression");
}

// Puts a line and those below it at the end of a list.
void list(const Line& line, std::vector<const Line*>& lines) {
    lines.push_back(&line);
    for (auto& below : line.below) list(*below, lines);
}

int main(int, char** arguments) {
    std::ifstream text(arguments[1]);
    auto program = parsed(text);
    auto cores = static_cast<unsigned>(std::stoul(arguments[2]));
    Shared shared(program);
    std::atomic<bool> is_over{false};
    std::vector<std::thread> workers;
    for (unsigned i = 1; i < cores; i++) {
        workers.emplace_back([&] {
            fibers::use_scheduling_algorithm<fibers::algo::work_stealing>(cores);
            while (!is_over.load()) boost::this_fiber::yield();
        });
    }
    if (cores > 1) fibers::use_scheduling_algorithm<fibers::algo::work_stealing>(cores);
    Number value = 0;
    std::vector<const Line*> lines;
    std::unique_ptr<Line> root;
    fibers::fiber([&] {
        Thread thread(shared, {}, {});
        value = thread.value(*program.root);
        root = std::move(thread.line);
    }).join();
    is_over = true;
    for (auto& worker : workers) worker.join();
    list(*root, lines);
    std::printf("value %llu\n", static_cast<unsigned long long>(value));
}
