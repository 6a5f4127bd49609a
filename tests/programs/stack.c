/* A small stack language and a program in it. The program is compiled to instructions and run: it
   lists and counts primes, and looks for the longest Collatz sequence up to a limit. A word acts on
   the stack; `: name .. ;` defines one; `if .. else .. then`, `begin .. until` and
   `begin .. while .. repeat` are as in Forth; `@` and `!` load and store a numbered cell. */

#include "console.h"

static const char source[] =
    " : is-prime 2 begin over over dup * < if drop drop 1 1 else"
    "     over over % if 1 + 0 else drop drop 0 1 then then until ;"
    " : list 2 begin over over > while dup is-prime if dup . then 1 + repeat drop drop cr ;"
    " : primes 0 swap begin dup 1 > while dup is-prime if swap 1 + swap then 1 - repeat drop ;"
    " : next dup 2 % if 3 * 1 + else 2 / then ;"
    " : steps 0 swap begin dup 1 > while next swap 1 + swap repeat drop ;"
    " : longest 0 0 ! 0 1 ! begin dup while"
    "     dup steps dup 1 @ > if 1 ! dup 0 ! else drop then 1 - repeat drop 0 @ . 1 @ . cr ;"
    " 100 list 400 primes . cr 27 steps . cr 120 longest";

enum { NAME = 16, DEFINITIONS = 16, CODE = 256, MARKS = 16, STACK = 32, CELLS = 2 };

enum operation {
    ADD, SUBTRACT, MULTIPLY, DIVIDE, REMAINDER, LESS, GREATER,
    DUPLICATE, DROP, SWAP, OVER, LOAD, STORE, PRINT, NEWLINE,
    PUSH, JUMP, JUMP_IF_ZERO, CALL, RETURN, HALT
};

/* The names of the operations that a program can write, in their order. */
static const char *const operation_names[] = {
    "+", "-", "*", "/", "%", "<", ">", "dup", "drop", "swap", "over", "@", "!", ".", "cr",
};

enum { NAMED = sizeof operation_names / sizeof operation_names[0] };

struct instruction {
    enum operation operation;
    int64_t operand;
};

struct definition {
    char name[NAME];
    int start;
};

struct compiler {
    const char *rest;
    char word[NAME];
    struct instruction code[CODE];
    int size;
    int marks[MARKS];  /* places of open control words */
    int mark_count;
    struct definition definitions[DEFINITIONS];
    int definition_count;
};

static void fail(const char *why)
{
    print_text(why);
    print_text("\n");
}

static int is_same(const char *one, const char *other)
{
    while (*one && *one == *other) {
        one++;
        other++;
    }
    return *one == *other;
}

/* Takes the next word from the source, or tells that there is none. */
static int next_word(struct compiler *compiler)
{
    int length = 0;
    while (*compiler->rest == ' ')
        compiler->rest++;
    while (*compiler->rest && *compiler->rest != ' ' && length < NAME - 1)
        compiler->word[length++] = *compiler->rest++;
    compiler->word[length] = '\0';
    return length > 0;
}

static void emit(struct compiler *compiler, enum operation operation, int64_t operand)
{
    if (compiler->size == CODE) {
        fail("too much code");
        return;
    }
    compiler->code[compiler->size++] = (struct instruction){ operation, operand };
}

static void mark(struct compiler *compiler, int place)
{
    if (compiler->mark_count == MARKS) {
        fail("too many open words");
        return;
    }
    compiler->marks[compiler->mark_count++] = place;
}

static int marked(struct compiler *compiler)
{
    if (compiler->mark_count == 0) {
        fail("nothing is open");
        return 0;
    }
    return compiler->marks[--compiler->mark_count];
}

static void jump_ahead(struct compiler *compiler, enum operation operation)
{
    mark(compiler, compiler->size);
    emit(compiler, operation, 0);
}

static void land(struct compiler *compiler, int jump)
{
    compiler->code[jump].operand = compiler->size;
}

/* A definition stands where it is written, and a jump leads around it. */
static void compile_colon(struct compiler *compiler)
{
    jump_ahead(compiler, JUMP);
    if (!next_word(compiler) || compiler->definition_count == DEFINITIONS) {
        fail("no room or name for a definition");
        return;
    }
    struct definition *made = &compiler->definitions[compiler->definition_count++];
    for (int at = 0; at < NAME; at++)
        made->name[at] = compiler->word[at];
    made->start = compiler->size;
}

static void compile_semicolon(struct compiler *compiler)
{
    emit(compiler, RETURN, 0);
    land(compiler, marked(compiler));
}

static void compile_if(struct compiler *compiler)
{
    jump_ahead(compiler, JUMP_IF_ZERO);
}

static void compile_else(struct compiler *compiler)
{
    int condition = marked(compiler);
    jump_ahead(compiler, JUMP);
    land(compiler, condition);
}

static void compile_then(struct compiler *compiler)
{
    land(compiler, marked(compiler));
}

static void compile_begin(struct compiler *compiler)
{
    mark(compiler, compiler->size);
}

static void compile_until(struct compiler *compiler)
{
    emit(compiler, JUMP_IF_ZERO, marked(compiler));
}

static void compile_repeat(struct compiler *compiler)
{
    int condition = marked(compiler);
    emit(compiler, JUMP, marked(compiler));
    land(compiler, condition);
}

static const struct {
    const char *name;
    void (*compile)(struct compiler *);
} controls[] = {
    { ":", compile_colon }, { ";", compile_semicolon },
    { "if", compile_if }, { "else", compile_else }, { "then", compile_then },
    { "begin", compile_begin }, { "until", compile_until },
    { "while", compile_if }, { "repeat", compile_repeat },
};

enum { CONTROLS = sizeof controls / sizeof controls[0] };

static void compile_number(struct compiler *compiler)
{
    int64_t number = 0;
    for (const char *digit = compiler->word; *digit; digit++) {
        if (*digit < '0' || *digit > '9') {
            fail("an unknown word");
            return;
        }
        number = 10 * number + (*digit - '0');
    }
    emit(compiler, PUSH, number);
}

static void compile_word(struct compiler *compiler)
{
    for (int at = 0; at < CONTROLS; at++) {
        if (is_same(controls[at].name, compiler->word)) {
            controls[at].compile(compiler);
            return;
        }
    }
    for (int at = 0; at < compiler->definition_count; at++) {
        if (is_same(compiler->definitions[at].name, compiler->word)) {
            emit(compiler, CALL, compiler->definitions[at].start);
            return;
        }
    }
    for (int at = 0; at < NAMED; at++) {
        if (is_same(operation_names[at], compiler->word)) {
            emit(compiler, (enum operation)at, 0);
            return;
        }
    }
    compile_number(compiler);
}

static void compile(struct compiler *compiler)
{
    while (next_word(compiler))
        compile_word(compiler);
    emit(compiler, HALT, 0);
}

struct interpreter {
    int64_t stack[STACK];
    int depth;
    int returns[STACK];
    int return_count;
    int64_t cells[CELLS];
    int has_failed;
};

static void push(struct interpreter *interpreter, int64_t value)
{
    if (interpreter->depth == STACK)
        interpreter->has_failed = 1;
    else
        interpreter->stack[interpreter->depth++] = value;
}

static int64_t pop(struct interpreter *interpreter)
{
    if (interpreter->depth > 0)
        return interpreter->stack[--interpreter->depth];
    interpreter->has_failed = 1;
    return 0;
}

static int64_t *cell(struct interpreter *interpreter, int64_t number)
{
    if (number >= 0 && number < CELLS)
        return &interpreter->cells[number];
    interpreter->has_failed = 1;
    return &interpreter->cells[0];
}

static int64_t combined(enum operation operation, int64_t left, int64_t right)
{
    switch (operation) {
    case ADD: return left + right;
    case SUBTRACT: return left - right;
    case MULTIPLY: return left * right;
    case DIVIDE: return right ? left / right : 0;
    case REMAINDER: return right ? left % right : 0;
    case LESS: return left < right;
    default: return left > right;
    }
}

/* The operations that change the stack, the cells or the console, and not the place in the code. */
static void operate(struct interpreter *interpreter, enum operation operation)
{
    int64_t top = operation == NEWLINE ? 0 : pop(interpreter);
    if (operation <= GREATER) {
        push(interpreter, combined(operation, pop(interpreter), top));
    } else if (operation == DUPLICATE) {
        push(interpreter, top);
        push(interpreter, top);
    } else if (operation == SWAP || operation == OVER) {
        int64_t below = pop(interpreter);
        if (operation == OVER)
            push(interpreter, below);
        push(interpreter, top);
        push(interpreter, below);
    } else if (operation == LOAD) {
        push(interpreter, *cell(interpreter, top));
    } else if (operation == STORE) {
        *cell(interpreter, top) = pop(interpreter);
    } else if (operation == PRINT) {
        print_number((uint64_t)top);
        putchar(' ');
    } else if (operation == NEWLINE) {
        putchar('\n');
    }
}

/* Carries a call out, and gives the place where the code goes on. */
static int enter(struct interpreter *interpreter, int from, int start)
{
    if (interpreter->return_count == STACK) {
        interpreter->has_failed = 1;
        return from;
    }
    interpreter->returns[interpreter->return_count++] = from;
    return start;
}

static int leave(struct interpreter *interpreter, int from)
{
    if (interpreter->return_count > 0)
        return interpreter->returns[--interpreter->return_count];
    interpreter->has_failed = 1;
    return from;
}

/* Runs code up to its HALT, and gives the number of operations that it took. */
static uint64_t execute(struct interpreter *interpreter, const struct instruction *code)
{
    uint64_t count = 0;
    int place = 0;
    while (code[place].operation != HALT && !interpreter->has_failed) {
        const struct instruction *now = &code[place++];
        count++;
        if (now->operation < PUSH)
            operate(interpreter, now->operation);
        else if (now->operation == PUSH)
            push(interpreter, now->operand);
        else if (now->operation == CALL)
            place = enter(interpreter, place, (int)now->operand);
        else if (now->operation == RETURN)
            place = leave(interpreter, place);
        else if (now->operation == JUMP || pop(interpreter) == 0)
            place = (int)now->operand;
    }
    return count;
}

int main(void)
{
    static struct compiler compiler;
    static struct interpreter interpreter;
    compiler.rest = source;
    compile(&compiler);
    print_named("instructions", (uint64_t)compiler.size);
    print_named("operations", execute(&interpreter, compiler.code));
    print_named("left on the stack", (uint64_t)interpreter.depth);
    print_text(interpreter.has_failed ? "failed\n" : "done\n");
    return 0;
}
