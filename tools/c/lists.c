void print_int(long n);
void newline(void);
void *allocate(unsigned long bytes);

/* a function of an element and of what the rest comes to; its data stand behind it */
struct step {
    long (*call)(struct step *self, long x, long rest);
};

/* a list is a function of a step and of what the empty list comes to; its data stand behind it */
struct list {
    long (*call)(struct list *self, struct step *f, long end);
};

static long call_nil(struct list *self, struct step *f, long end) { return end; }

static struct list *nil(void) {
    struct list *made = allocate(sizeof(struct list));
    made->call = call_nil;
    return made;
}

struct cons {
    struct list list;
    long x;
    struct list *rest;
};

static long call_cons(struct list *self, struct step *f, long end) {
    struct cons *own = (struct cons *)self;
    return f->call(f, own->x, own->rest->call(own->rest, f, end));
}

static struct list *cons(long x, struct list *rest) {
    struct cons *made = allocate(sizeof(struct cons));
    made->list.call = call_cons;
    made->x = x;
    made->rest = rest;
    return &made->list;
}

static struct list *range(long from, long to) { return from < to ? cons(from, range(from + 1, to)) : nil(); }

static long add(struct step *self, long x, long rest) { return x + rest; }

static long sum(struct list *l) {
    struct step f = {add};
    return l->call(l, &f, 0);
}

static long one_more(struct step *self, long x, long rest) { return 1 + rest; }

static long length(struct list *l) {
    struct step f = {one_more};
    return l->call(l, &f, 0);
}

static long larger(struct step *self, long x, long rest) { return rest < x ? x : rest; }

static long largest(struct list *l) {
    struct step f = {larger};
    return l->call(l, &f, 0);
}

struct map {
    struct list list;
    long (*g)(long x);
    struct list *of;
};

struct map_step {
    struct step step;
    long (*g)(long x);
    struct step *f;
};

static long call_map_step(struct step *self, long x, long rest) {
    struct map_step *own = (struct map_step *)self;
    return own->f->call(own->f, own->g(x), rest);
}

static long call_map(struct list *self, struct step *f, long end) {
    struct map *own = (struct map *)self;
    struct map_step inner = {{call_map_step}, own->g, f};
    return own->of->call(own->of, &inner.step, end);
}

static struct list *map(long (*g)(long x), struct list *l) {
    struct map *made = allocate(sizeof(struct map));
    made->list.call = call_map;
    made->g = g;
    made->of = l;
    return &made->list;
}

struct filter {
    struct list list;
    int (*keeps)(long x);
    struct list *of;
};

struct filter_step {
    struct step step;
    int (*keeps)(long x);
    struct step *f;
};

static long call_filter_step(struct step *self, long x, long rest) {
    struct filter_step *own = (struct filter_step *)self;
    return own->keeps(x) ? own->f->call(own->f, x, rest) : rest;
}

static long call_filter(struct list *self, struct step *f, long end) {
    struct filter *own = (struct filter *)self;
    struct filter_step inner = {{call_filter_step}, own->keeps, f};
    return own->of->call(own->of, &inner.step, end);
}

static struct list *filter(int (*keeps)(long x), struct list *l) {
    struct filter *made = allocate(sizeof(struct filter));
    made->list.call = call_filter;
    made->keeps = keeps;
    made->of = l;
    return &made->list;
}

struct append {
    struct list list;
    struct list *first;
    struct list *second;
};

static long call_append(struct list *self, struct step *f, long end) {
    struct append *own = (struct append *)self;
    return own->first->call(own->first, f, own->second->call(own->second, f, end));
}

static struct list *append(struct list *first, struct list *second) {
    struct append *made = allocate(sizeof(struct append));
    made->list.call = call_append;
    made->first = first;
    made->second = second;
    return &made->list;
}

static long print(struct step *self, long x, long rest) {
    print_int(x);
    newline();
    return rest + 1;
}

static long show(struct list *l) {
    struct step f = {print};
    return l->call(l, &f, 0);
}

static long square(long x) { return x * x; }

static int is_odd(long x) { return x % 2 == 1; }

long program(void) {
    struct list *numbers = range(1, 11);
    struct list *squares = map(square, numbers);
    struct list *odd = filter(is_odd, squares);
    show(odd);
    print_int(sum(squares));
    newline();
    print_int(length(append(odd, numbers)));
    newline();
    return largest(append(numbers, odd));
}
