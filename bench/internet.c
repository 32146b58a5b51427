/* Makes a table of BGP routes over a made-up Internet whose relationships are known (RFC 6396).
 *
 *   cc -O2 -o internet internet.c -lm
 *   internet [OPTION ..] DUMP
 *
 *   --ases N        networks, from 100 to 350000 (75000)
 *   --peerings N    pairs of peers among them (170000)
 *   --prefixes N    announced prefixes (200000)
 *   --v6 N          of a hundred prefixes so many are IPv6 (15)
 *   --vantages N    networks that send their routes to the collector, from 1 to 1000 (20)
 *   --seed N        each seed has networks, contracts and routes of its own (1)
 *   --day N         the table of a day, from 1. Nothing differs from one day to another but what is leaked, and some announcements
 *   --changed N     of a million prefixes so many are announced anew on each day (100000)
 *   --leak N        of a million prefixes so many are leaked (40000)
 *   --set N         .. so many end with an AS_SET (600)
 *   --private N     .. so many end with a private AS number (300)
 *   --poison N      .. so many name another network of the path after their origin (300)
 *   --truth FILE    writes the relationships there: `provider|customer|-1` and `peer|peer|0`
 *   --v1            writes records of TABLE_DUMP, with AS4_PATH where a number needs it, in place of TABLE_DUMP_V2
 *
 * The same options always give the same octets. One line on standard output says what was made.
 *
 * Networks. A few buy from nobody and peer with each other. Each later one buys from networks before it, mostly of its own region. It buys
 * the more likely from one the more customers that has. Pairs of the later ones peer, mostly within a region.
 * Routes. A network takes routes of its customers first, then those of its peers, then those of its providers. Among these it takes the
 * shortest, and then goes by a fixed order of its own. It passes routes of customers to everybody, and all others to its customers alone
 * (Gao and Rexford 2001). So each path is valley-free but where a prefix is leaked: there a network passes the route of a provider or of a
 * peer to a provider.
 * Announcements. Some networks stand several times at the end of a path or within it, and some origins announce a prefix to a part of their
 * providers.
 */
#include <math.h>
#include <stdbool.h>
#include <stdint.h>
#include <stdio.h>
#include <stdlib.h>
#include <string.h>

enum {
    REGIONS = 5,
    MOST_TIER1 = 14,
    PLACES = 32,        /* of the providers of an origin so many may be left out or get a longer path */
    MOST_HOPS = 96,     /* no route is longer */
    LAST_HOPS = 84,     /* no route of this length or above is passed on to a provider */
    MOST_NUMBERS = 256, /* room for a path */
    LEAK_TRIES = 50,
    LEAKED_HOPS = 60
};
#define UNREACHED UINT32_MAX

static uint32_t ases = 75000, peerings = 170000, prefixes = 200000, v6_percent = 15, vantages = 20, day = 0;
static uint32_t leaked_ppm = 40000, set_ppm = 600, private_ppm = 300, poisoned_ppm = 300, changed_ppm = 100000;
static uint64_t seed = 1;
static bool version1 = false;
static const char *dump_name, *truth_name;

/* --- Draws: SplitMix64 (Steele, Lea and Flood 2014) --- */

static uint64_t state;     /* of the draws that come next */
static uint64_t day_state; /* of those for the changes of the day, while others are made */

static void swap_states(void) {
    uint64_t other = day_state;
    day_state = state;
    state = other;
}

static uint64_t draw(void) {
    uint64_t z = state += 0x9e3779b97f4a7c15;
    z = (z ^ (z >> 30)) * 0xbf58476d1ce4e5b9;
    z = (z ^ (z >> 27)) * 0x94d049bb133111eb;
    return z ^ (z >> 31);
}

static uint32_t below(uint32_t bound) {
    return (uint32_t)(((draw() >> 32) * bound) >> 32);
}

static bool chance(uint32_t ppm) {
    return below(1000000) < ppm;
}

/* A number above 0 and below 1. */
static double fraction(void) {
    return (below(1000000) + 1) / 1000001.0;
}

/* No draw, but a fixed number for each pair. */
static uint32_t mixed(uint32_t a, uint32_t b) {
    uint64_t z = ((uint64_t)a << 32 | b) * 0x9e3779b97f4a7c15;
    z ^= z >> 29;
    z *= 0xbf58476d1ce4e5b9;
    return (uint32_t)(z >> 32);
}

/* --- Memory --- */

static void *or_stop(void *room) {
    if (room == NULL) {
        fprintf(stderr, "no memory\n");
        exit(7);
    }
    return room;
}

static void *zeros(size_t count, size_t size) {
    return or_stop(calloc(count ? count : 1, size));
}

typedef struct {
    uint32_t *items;
    uint32_t count, room;
} List;

static void push(List *list, uint32_t item) {
    if (list->count == list->room) {
        list->room = list->room ? list->room * 2 : 64;
        list->items = or_stop(realloc(list->items, list->room * sizeof *list->items));
    }
    list->items[list->count++] = item;
}

static uint32_t any_of(const List *list) {
    return list->items[below(list->count)];
}

/* --- Networks and their relationships --- */

static uint32_t tier1;             /* the networks 0 up to this number buy from nobody */
static uint32_t *number_of;        /* of each network its AS number */
static uint8_t *region_of;
static bool *sells;                /* whether it may have customers */
static List customers, providers;  /* the contracts, in two lists side by side */
static List lefts, rights;         /* the peerings, as well */

/* The neighbours of each network: those of `as` are `items[starts[as]]` up to `items[starts[as + 1]]`. */
typedef struct {
    uint32_t *starts, *items;
} Rows;

static Rows providers_of, peers_of;

static uint32_t count_of(const Rows *rows, uint32_t as) {
    return rows->starts[as + 1] - rows->starts[as];
}

/* The pairs that have a relationship, in a table by hash; 0 is a free place. */
static uint64_t *pairs;
static uint32_t pairs_mask;

/* Whether the pair is new; then it is there. */
static bool add_pair(uint32_t a, uint32_t b) {
    uint64_t pair = (a < b ? (uint64_t)a << 32 | b : (uint64_t)b << 32 | a) + 1;
    uint32_t place = mixed((uint32_t)(pair >> 32), (uint32_t)pair) & pairs_mask;
    while (pairs[place] != 0) {
        if (pairs[place] == pair)
            return false;
        place = (place + 1) & pairs_mask;
    }
    pairs[place] = pair;
    return true;
}

static void make_pairs(void) {
    uint64_t most = (uint64_t)ases * 4 + (uint64_t)peerings * 2;
    uint64_t room = 1;
    while (room < most * 2)
        room <<= 1;
    pairs = zeros(room, sizeof *pairs);
    pairs_mask = (uint32_t)(room - 1);
}

/* Numbers that are public and all different; those of early networks mostly have two octets. */
static void number_networks(void) {
    bool *taken = zeros(131072 + 289000, sizeof *taken);
    for (uint32_t as = 0; as < ases; as++) {
        uint32_t percent = as < tier1 ? 100 : as < ases / 3 ? 75 : 45;
        uint32_t number, tries = 0;
        do {
            bool small = tries < 200 && below(100) < percent;
            number = small ? 1 + below(64495) : 131072 + below(270000);
            if (ases > 150000)
                number = 131072 + below(289000);
            tries++;
        } while (number == 23456 || taken[number]);
        taken[number] = true;
        number_of[as] = number;
    }
    free(taken);
}

static uint32_t draw_provider_count(uint32_t as) {
    uint32_t drawn = below(1000);
    uint32_t count = drawn < 380 ? 1 : drawn < 770 ? 2 : drawn < 910 ? 3 : drawn < 960 ? 4 : drawn < 985 ? 6 : 9;
    return as < tier1 * 20 && count < 2 ? 2 : count;
}

/* A network stands in the lists as often as it is likely to be bought from: once more for each customer. */
static void draw_contracts(void) {
    List all = {0}, near[REGIONS] = {{0}};
    for (uint32_t as = 0; as < tier1; as++) {
        sells[as] = true;
        region_of[as] = as % REGIONS;
        for (int times = 0; times < 6; times++) {
            push(&all, as);
            push(&near[region_of[as]], as);
        }
    }
    for (uint32_t as = tier1; as < ases; as++) {
        uint32_t region = below(REGIONS);
        region_of[as] = (uint8_t)region;
        sells[as] = below(1000) < (as < ases / 20 ? 700u : as < ases / 4 ? 220u : 60u);
        uint32_t count = draw_provider_count(as);
        for (uint32_t i = 0; i < count; i++) {
            const List *from = below(100) < 70 && near[region].count > 0 ? &near[region] : &all;
            uint32_t provider = any_of(from);
            if (!add_pair(as, provider))
                continue;
            push(&customers, as);
            push(&providers, provider);
            push(&all, provider);
            push(&near[region_of[provider]], provider);
        }
        if (sells[as]) {
            push(&all, as);
            push(&near[region], as);
        }
    }
    free(all.items);
    for (int region = 0; region < REGIONS; region++)
        free(near[region].items);
}

static void add_peering(uint32_t a, uint32_t b) {
    push(&lefts, a);
    push(&rights, b);
}

/* How often a network stands in the lists from which peers are drawn. */
static uint32_t draw_openness(uint32_t as) {
    uint32_t open_permille = sells[as] ? 500 : as < ases / 2 ? 200 : 120;
    if (below(1000) >= open_permille)
        return 0;
    uint32_t times = (uint32_t)(1.0 / pow(fraction(), 0.8));
    if (times > 400)
        times = 400;
    return sells[as] ? times * 2 : times;
}

static void draw_peerings(void) {
    for (uint32_t a = 0; a < tier1; a++) {
        for (uint32_t b = a + 1; b < tier1; b++) {
            add_pair(a, b);
            add_peering(a, b);
        }
    }
    List all = {0}, near[REGIONS] = {{0}};
    for (uint32_t as = tier1; as < ases; as++) {
        for (uint32_t times = draw_openness(as); times > 0; times--) {
            push(&all, as);
            push(&near[region_of[as]], as);
        }
    }
    for (uint64_t tries = 0; all.count > 1 && lefts.count < peerings && tries < (uint64_t)peerings * 20; tries++) {
        uint32_t a = any_of(&all);
        const List *from = below(100) < 80 && near[region_of[a]].count > 0 ? &near[region_of[a]] : &all;
        uint32_t b = any_of(from);
        if (a != b && add_pair(a, b))
            add_peering(a, b);
    }
    free(all.items);
    for (int region = 0; region < REGIONS; region++)
        free(near[region].items);
}

/* The neighbours `others` of the networks `owners`, side by side in two lists; with `both` also the other way round. */
static Rows rows_of(const List *owners, const List *others, bool both) {
    Rows rows = {zeros(ases + 1, sizeof(uint32_t)), zeros(owners->count * (size_t)2, sizeof(uint32_t))};
    uint32_t *filled = zeros(ases, sizeof *filled);
    for (uint32_t i = 0; i < owners->count; i++) {
        rows.starts[owners->items[i] + 1]++;
        if (both)
            rows.starts[others->items[i] + 1]++;
    }
    for (uint32_t as = 0; as < ases; as++)
        rows.starts[as + 1] += rows.starts[as];
    for (uint32_t i = 0; i < owners->count; i++) {
        uint32_t owner = owners->items[i], other = others->items[i];
        rows.items[rows.starts[owner] + filled[owner]++] = other;
        if (both)
            rows.items[rows.starts[other] + filled[other]++] = owner;
    }
    free(filled);
    return rows;
}

static FILE *opened(const char *name, const char *mode) {
    FILE *file = fopen(name, mode);
    if (file == NULL) {
        perror(name);
        exit(5);
    }
    return file;
}

static void closed(FILE *file, const char *name) {
    if (ferror(file) | fclose(file)) {
        perror(name);
        exit(5);
    }
}

static void write_truth(void) {
    FILE *file = opened(truth_name, "w");
    for (uint32_t i = 0; i < customers.count; i++)
        fprintf(file, "%u|%u|-1\n", number_of[providers.items[i]], number_of[customers.items[i]]);
    for (uint32_t i = 0; i < lefts.count; i++)
        fprintf(file, "%u|%u|0\n", number_of[lefts.items[i]], number_of[rights.items[i]]);
    closed(file, truth_name);
}

static void make_networks(void) {
    uint32_t fiftieth = ases / 50;
    tier1 = fiftieth > MOST_TIER1 ? MOST_TIER1 : fiftieth < 3 ? 3 : fiftieth;
    number_of = zeros(ases, sizeof *number_of);
    region_of = zeros(ases, sizeof *region_of);
    sells = zeros(ases, sizeof *sells);
    make_pairs();
    number_networks();
    draw_contracts();
    draw_peerings();
    providers_of = rows_of(&customers, &providers, false);
    peers_of = rows_of(&lefts, &rights, true);
    free(pairs);
    if (truth_name != NULL)
        write_truth();
}

/* --- The routes to one prefix --- */

/* How a prefix is announced. */
typedef struct {
    uint32_t origin;
    uint32_t announced_to;     /* bit i: whether the provider number i of the origin gets it */
    uint8_t repeated[PLACES];  /* how often more the origin stands in the path to that provider */
    bool leaks;
    uint32_t leaker, leaked_to;
} Announcement;

/* Counts only in the round in which it was found. */
typedef struct {
    uint32_t round, hops, next;
} Route;

static uint32_t round_now;        /* counts the prefixes for which routes are found */
static Route *from_customers;     /* the best route from a customer, of each network */
static Route *from_others;        /* the best route of all, of the networks that have none from a customer */
static bool *on_leak;             /* whether the network is on the path that is leaked */
static uint32_t *held_in;         /* the round in which its route is one of the leaked path, which it announces to no peer */
static List reached[MOST_HOPS];   /* the networks that got a route from a customer, by its hops */

static bool has_customer_route(uint32_t as) {
    return from_customers[as].round == round_now;
}

/* The customer `next` announces a route to the network. */
static void announce(uint32_t as, uint32_t hops, uint32_t next) {
    Route *route = &from_customers[as];
    if (hops >= MOST_HOPS)
        return;
    if (!has_customer_route(as) || hops < route->hops) {
        *route = (Route){round_now, hops, next};
        push(&reached[hops], as);
    } else if (hops == route->hops && mixed(as, next) < mixed(as, route->next)) {
        route->next = next;
    }
}

static void announce_to_providers(const Announcement *how, uint32_t as, uint32_t hops) {
    for (uint32_t i = 0; i < count_of(&providers_of, as); i++) {
        uint32_t provider = providers_of.items[providers_of.starts[as] + i];
        uint32_t more = 0;
        if (as == how->origin && i < PLACES) {
            if (!(how->announced_to >> i & 1))
                continue;
            more = how->repeated[i];
        }
        if (!on_leak[provider])
            announce(provider, hops + 1 + more, as);
    }
}

/* The customer `next` announces a route to the network, and this goes on to all above it, the shortest routes first. */
static void climb(const Announcement *how, uint32_t as, uint32_t hops, uint32_t next) {
    for (int i = 0; i < MOST_HOPS; i++)
        reached[i].count = 0;
    announce(as, hops, next);
    for (uint32_t at = hops; at < LAST_HOPS; at++) {
        for (uint32_t i = 0; i < reached[at].count; i++) {
            uint32_t lower = reached[at].items[i];
            if (from_customers[lower].hops == at)
                announce_to_providers(how, lower, at);
        }
    }
}

static bool is_better(uint32_t as, uint32_t hops, uint32_t next, const Route *than) {
    return hops < than->hops || (hops == than->hops && mixed(as, next) < mixed(as, than->next));
}

/* The best route of a network, with UNREACHED hops if it has none. */
static const Route *best(uint32_t as) {
    if (has_customer_route(as))
        return &from_customers[as];
    if (from_others[as].round == round_now)
        return &from_others[as];
    Route found = {round_now, UNREACHED, UNREACHED};
    for (uint32_t i = peers_of.starts[as]; i < peers_of.starts[as + 1]; i++) {
        uint32_t peer = peers_of.items[i];
        if (!has_customer_route(peer) || held_in[peer] == round_now)
            continue;
        uint32_t hops = from_customers[peer].hops + 1;
        if (is_better(as, hops, peer, &found))
            found = (Route){round_now, hops, peer};
    }
    if (found.next == UNREACHED) {
        for (uint32_t i = providers_of.starts[as]; i < providers_of.starts[as + 1]; i++) {
            uint32_t provider = providers_of.items[i];
            uint32_t hops = best(provider)->hops;
            if (hops != UNREACHED && is_better(as, hops + 1, provider, &found))
                found = (Route){round_now, hops + 1, provider};
        }
    }
    from_others[as] = found;
    return &from_others[as];
}

/* The networks from the leaker to the origin; none if the leaker has a route from a customer, which it may announce. */
static List leaked_path(const Announcement *how) {
    List path = {0};
    uint32_t as = how->leaker;
    if (has_customer_route(as))
        return path;
    for (int i = 0; i < LEAKED_HOPS; i++) {
        push(&path, as);
        if (as == how->origin)
            break;
        if (best(as)->hops == UNREACHED) {
            path.count = 0;
            break;
        }
        as = best(as)->next;
    }
    return path;
}

/* The leaker announces its route to one of its providers. From there it goes upwards like a route from a customer. */
static void leak(const Announcement *how) {
    List path = leaked_path(how);
    for (uint32_t i = 0; i < path.count; i++)
        on_leak[path.items[i]] = true;
    if (path.count > 0 && !on_leak[how->leaked_to] && !has_customer_route(how->leaked_to)) {
        for (uint32_t i = 0; i + 1 < path.count; i++) {
            uint32_t as = path.items[i];
            if (!has_customer_route(as)) {
                from_customers[as] = (Route){round_now, from_others[as].hops, path.items[i + 1]};
                held_in[as] = round_now;
            }
        }
        climb(how, how->leaked_to, from_customers[how->leaker].hops + 1, how->leaker);
    }
    for (uint32_t i = 0; i < path.count; i++)
        on_leak[path.items[i]] = false;
    free(path.items);
    for (uint32_t as = 0; as < ases; as++)
        if (from_others[as].round == round_now)
            from_others[as].round = 0;
}

static void find_routes(const Announcement *how) {
    round_now++;
    climb(how, how->origin, 0, how->origin);
    if (how->leaks)
        leak(how);
}

/* How often more the origin stands in the path to this provider. */
static uint32_t repeated_to(const Announcement *how, uint32_t provider) {
    uint32_t start = providers_of.starts[how->origin];
    for (uint32_t i = 0; i < count_of(&providers_of, how->origin) && i < PLACES; i++)
        if (providers_of.items[start + i] == provider)
            return how->repeated[i];
    return 0;
}

/* The numbers of the path from a network to the origin, and how many they are; none if it has no route. */
static uint32_t path_from(const Announcement *how, uint32_t from, uint32_t *numbers) {
    uint32_t count = 0, as = from;
    while (count < 200) {
        numbers[count++] = number_of[as];
        if (as == how->origin)
            break;
        const Route *route = best(as);
        if (route->hops == UNREACHED)
            return 0;
        if (route->next == how->origin)
            for (uint32_t more = repeated_to(how, as); more > 0; more--)
                numbers[count++] = number_of[how->origin];
        if (as != from && mixed(as * 31 + 7, route->next) % 1000 < 6) {
            numbers[count] = numbers[count - 1];
            count++;
        }
        as = route->next;
    }
    return count;
}

/* --- Announcements --- */

/* How an origin announces most of its prefixes. */
static Announcement draw_announcement(uint32_t origin) {
    Announcement how = {.origin = origin, .announced_to = UINT32_MAX};
    uint32_t count = count_of(&providers_of, origin);
    for (uint32_t i = 0; i < count && i < PLACES; i++)
        if (count > 1 && chance(90000))
            how.repeated[i] = (uint8_t)(1 + below(4));
    return how;
}

/* Draws a network that leaks, and the provider to which it leaks. Whether one was found. */
static bool draw_leak(Announcement *how) {
    for (int tries = 0; tries < LEAK_TRIES; tries++) {
        uint32_t leaker = below(ases / 12 + 20);
        uint32_t count = count_of(&providers_of, leaker);
        if (count < 2 || leaker == how->origin)
            continue;
        how->leaks = true;
        how->leaker = leaker;
        how->leaked_to = providers_of.items[providers_of.starts[leaker] + below(count)];
        return true;
    }
    return false;
}

/* Whether this one prefix is announced in a way of its own; then `how` says so. */
static bool draw_change(Announcement *how) {
    bool changed = false;
    uint32_t count = count_of(&providers_of, how->origin);
    if (count > PLACES)
        count = PLACES;
    if (count > 1 && chance(220000)) {
        uint32_t all = count == PLACES ? UINT32_MAX : (1u << count) - 1;
        changed = true;
        do
            how->announced_to = (uint32_t)draw();
        while (!(how->announced_to & all));
    }
    if (chance(60000)) {
        changed = true;
        for (uint32_t i = 0; i < count; i++)
            if (below(2))
                how->repeated[i] = (uint8_t)(1 + below(5));
    }
    return changed;
}

/* Whether and how this one prefix is announced in a way of its own, or leaked. */
static bool draw_prefix(const Announcement *usual, Announcement *how) {
    *how = *usual;
    bool changed = draw_change(how);
    if (day != 0)
        swap_states();
    if (day != 0 && chance(changed_ppm)) {
        *how = *usual;
        changed = draw_change(how);
    }
    if (chance(leaked_ppm))
        changed |= draw_leak(how);
    if (day != 0)
        swap_states();
    return changed;
}

/* What stands in the path after the origin. */
typedef enum { NOTHING, AS_SET, PRIVATE, POISON } Tail;

static Tail draw_tail(void) {
    if (chance(set_ppm))
        return AS_SET;
    if (chance(private_ppm))
        return PRIVATE;
    return chance(poisoned_ppm) ? POISON : NOTHING;
}

typedef struct {
    bool six;
    uint32_t length;
    uint8_t octets[16];
} Prefix;

static uint64_t next_address;

static Prefix draw_v4(void) {
    uint32_t drawn = below(100);
    uint32_t length =
        drawn < 61 ? 24 : drawn < 71 ? 23 : drawn < 84 ? 22 : drawn < 89 ? 21 : drawn < 94 ? 20 : drawn < 97 ? 19 : drawn < 99 ? 18 : 16;
    uint64_t size = (uint64_t)1 << (32 - length);
    uint64_t address = (next_address + size - 1) / size * size;
    next_address = address + size;
    if (next_address >= (uint64_t)224 << 24) {
        fprintf(stderr, "there aren't as many IPv4 prefixes\n");
        exit(3);
    }
    return (Prefix){false, length, {(uint8_t)(address >> 24), (uint8_t)(address >> 16), (uint8_t)(address >> 8), (uint8_t)address}};
}

static Prefix draw_v6(void) {
    uint32_t drawn = below(100), block = (uint32_t)next_address++;
    Prefix prefix = {true, drawn < 35 ? 32 : drawn < 45 ? 40 : 48,
                     {(uint8_t)(0x24 + (block >> 20)), (uint8_t)(block >> 12), (uint8_t)(block >> 4), (uint8_t)(block << 4)}};
    if (prefix.length == 48)
        prefix.octets[5] = (uint8_t)(1 + below(200));
    return prefix;
}

/* --- Records --- */

static FILE *dump;
static uint8_t *octets; /* the record that is being written, without its header */
static size_t octets_count, octets_room;

static void put1(uint32_t value) {
    if (octets_count == octets_room) {
        octets_room = octets_room ? octets_room * 2 : 1 << 16;
        octets = or_stop(realloc(octets, octets_room));
    }
    octets[octets_count++] = (uint8_t)value;
}

static void put2(uint32_t value) {
    put1(value >> 8);
    put1(value);
}

static void put4(uint32_t value) {
    put2(value >> 16);
    put2(value);
}

static void put_number(uint32_t number, bool wide) {
    if (wide)
        put4(number);
    else
        put2(number > 65535 ? 23456 : number); /* AS_TRANS */
}

/* Two octets for a number that comes later, and that number. */
static size_t leave2(void) {
    put2(0);
    return octets_count - 2;
}

static void fill2(size_t at, size_t value) {
    octets[at] = (uint8_t)(value >> 8);
    octets[at + 1] = (uint8_t)value;
}

static void fill_length(size_t at) {
    fill2(at, octets_count - at - 2);
}

static void put_vantage_address(bool six, uint32_t vantage) {
    if (six) {
        put4(0x20010db8);
        put4(0);
        put4(0);
        put4(vantage + 1);
    } else {
        put4(0xc6336400 + vantage + 1);
    }
}

static void end_record(uint32_t type, uint32_t subtype) {
    size_t count = octets_count;
    uint8_t header[12] = {0x67, 0x74, 0xd0, 0x80, (uint8_t)(type >> 8), (uint8_t)type, (uint8_t)(subtype >> 8), (uint8_t)subtype,
                          (uint8_t)(count >> 24), (uint8_t)(count >> 16), (uint8_t)(count >> 8), (uint8_t)count};
    fwrite(header, 1, sizeof header, dump);
    fwrite(octets, 1, count, dump);
    octets_count = 0;
}

static uint32_t *vantage_points;

/* The peer table: each vantage point first with its IPv4 address, then each with its IPv6 address. */
static void write_peers(void) {
    static const char view[] = "biggen";
    put4(0xc0000201);
    put2(sizeof view - 1);
    for (const char *letter = view; *letter; letter++)
        put1((uint8_t)*letter);
    put2(2 * vantages);
    for (uint32_t place = 0; place < 2 * vantages; place++) {
        uint32_t vantage = place % vantages;
        uint32_t number = number_of[vantage_points[vantage]];
        bool six = place >= vantages, wide = number > 65535 || vantage % 3 != 0;
        put1((six ? 1 : 0) | (wide ? 2 : 0));
        put4(0x0a000001 + vantage);
        put_vantage_address(six, vantage);
        put_number(number, wide);
    }
    end_record(13, 1);
}

/* A route of one vantage point. */
typedef struct {
    uint32_t vantage, origin;
    const uint32_t *numbers;
    uint32_t count;
    bool ends_with_set;
    uint32_t members[2];
} Seen;

static void put_path(const Seen *seen, bool wide) {
    size_t length = leave2();
    put1(2);
    put1(seen->count);
    for (uint32_t i = 0; i < seen->count; i++)
        put_number(seen->numbers[i], wide);
    if (seen->ends_with_set) {
        put1(1);
        put1(2);
        put_number(seen->members[0], wide);
        put_number(seen->members[1], wide);
    }
    fill_length(length);
}

static void put_origin_and_path(const Seen *seen, bool wide) {
    put4(0x40010100); /* ORIGIN */
    put2(0x5002);     /* AS_PATH, with a length of two octets */
    put_path(seen, wide);
}

static void put_next_hop(uint32_t vantage) {
    put1(0x40);
    put1(3);
    put1(4);
    put_vantage_address(false, vantage);
}

static void put_time(const Seen *seen) {
    put4(0x67700000 + mixed(seen->origin, seen->vantage) % 300000);
}

/* An entry of a record of TABLE_DUMP_V2. */
static void put_entry(const Prefix *prefix, const Seen *seen) {
    uint32_t vantage = seen->vantage, origin = seen->origin;
    uint32_t communities = mixed(origin, vantage_points[vantage]) % 4;
    put2(vantage + (prefix->six ? vantages : 0));
    put_time(seen);
    size_t length = leave2();
    put_origin_and_path(seen, true);
    if (!prefix->six)
        put_next_hop(vantage);
    if (mixed(origin * 3, vantage_points[vantage]) % 10 == 0) {
        put1(0x80);
        put1(4); /* MULTI_EXIT_DISC */
        put1(4);
        put4(mixed(vantage, origin) % 500);
    }
    if (communities > 0) {
        put1(0xc0);
        put1(8); /* COMMUNITIES */
        put1(4 * communities);
        for (uint32_t i = 0; i < communities; i++)
            put4(mixed(i, origin));
    }
    if (prefix->six) {
        put1(0x80);
        put1(14); /* MP_REACH_NLRI, of which only the next hop stands there */
        put1(17);
        put1(16);
        put_vantage_address(true, vantage);
    }
    fill_length(length);
}

static void put_prefix(const Prefix *prefix) {
    put1(prefix->length);
    for (uint32_t i = 0; i < (prefix->length + 7) / 8; i++)
        put1(prefix->octets[i]);
}

/* A record of TABLE_DUMP. */
static void write_version1(const Prefix *prefix, uint32_t sequence, const Seen *seen) {
    uint32_t vantage = seen->vantage;
    bool big = false;
    for (uint32_t i = 0; i < seen->count; i++)
        big |= seen->numbers[i] > 65535;
    put2(0);
    put2(sequence);
    for (uint32_t i = 0; i < (prefix->six ? 16u : 4u); i++)
        put1(prefix->octets[i]);
    put1(prefix->length);
    put1(1);
    put_time(seen);
    put_vantage_address(prefix->six, vantage);
    put_number(number_of[vantage_points[vantage]], false);
    size_t length = leave2();
    put_origin_and_path(seen, false);
    if (prefix->six) {
        put1(0x80);
        put1(14); /* MP_REACH_NLRI */
        put1(22 + (prefix->length + 7) / 8);
        put2(2);
        put1(1);
        put1(16);
        put_vantage_address(true, vantage);
        put1(0);
        put_prefix(prefix);
    } else {
        put_next_hop(vantage);
    }
    if (big) {
        put2(0xd011); /* AS4_PATH, with a length of two octets */
        put_path(seen, true);
    }
    fill_length(length);
    end_record(12, prefix->six ? 2 : 1);
}

/* --- The table --- */

static uint32_t (*paths)[MOST_NUMBERS]; /* of each vantage point the path to the origin */
static uint32_t *paths_count;           /* and how many numbers it has */
static uint32_t sequence;               /* counts the prefixes */
static uint64_t routes, leaked_routes;

/* Half of the vantage points are large networks that sell, and half are any. */
static void draw_vantage_points(void) {
    vantage_points = zeros(vantages, sizeof *vantage_points);
    for (uint32_t i = 0; i < vantages; i++) {
        bool large = i % 2 == 0, fits;
        do {
            uint32_t as = large ? below(ases / 40 + 3) : below(ases);
            fits = !large || sells[as];
            for (uint32_t j = 0; fits && j < i; j++)
                fits = vantage_points[j] != as;
            vantage_points[i] = as;
        } while (!fits);
    }
}

/* Writes the routes of all vantage points to one prefix. Two of a hundred are missing. */
static void write_prefix(const Prefix *prefix, const Announcement *how, Tail tail) {
    uint32_t first = 1 + below(64000);
    uint32_t second = 1 + below(64000);
    size_t entries_at = 0;
    uint32_t entries = 0;
    if (!version1) {
        put4(sequence);
        put_prefix(prefix);
        entries_at = leave2();
    }
    for (uint32_t vantage = 0; vantage < vantages; vantage++) {
        uint32_t numbers[MOST_NUMBERS], count = paths_count[vantage];
        if (count == 0 || mixed(sequence * 131 + vantage, (uint32_t)seed) % 100 < 2)
            continue;
        memcpy(numbers, paths[vantage], count * sizeof *numbers);
        if (tail == PRIVATE) {
            numbers[count++] = 64512 + first % 1000;
        } else if (tail == POISON && count >= 2) {
            numbers[count] = numbers[count > 2 ? count - 3 : 0];
            numbers[count + 1] = numbers[count - 1];
            count += 2;
        }
        Seen seen = {vantage, how->origin, numbers, count, tail == AS_SET, {first, second}};
        if (version1)
            write_version1(prefix, sequence, &seen);
        else
            put_entry(prefix, &seen);
        entries++;
    }
    if (!version1) {
        fill2(entries_at, entries);
        end_record(13, prefix->six ? 4 : 2);
    }
    routes += entries;
    if (how->leaks)
        leaked_routes += entries;
    sequence++;
}

static void write_origin(uint32_t origin, uint32_t count, bool six) {
    Announcement usual = draw_announcement(origin);
    bool are_usual = false; /* whether the paths are those of the usual announcement */
    for (uint32_t i = 0; i < count; i++) {
        Announcement how;
        bool changed = draw_prefix(&usual, &how);
        Tail tail = draw_tail();
        if (changed || !are_usual) {
            find_routes(&how);
            for (uint32_t vantage = 0; vantage < vantages; vantage++)
                paths_count[vantage] = path_from(&how, vantage_points[vantage], paths[vantage]);
            are_usual = !changed;
        }
        Prefix prefix = six ? draw_v6() : draw_v4();
        write_prefix(&prefix, &how, tail);
    }
}

/* How many prefixes each of the origins announces: one, and of the others very many for a few (by Pareto). */
static uint32_t *draw_prefix_counts(uint32_t origins, uint32_t wanted) {
    uint32_t *counts = zeros(origins, sizeof *counts);
    double *weights = zeros(origins, sizeof *weights);
    double sum = 0;
    for (uint32_t i = 0; i < origins; i++) {
        weights[i] = 1.0 / pow(fraction(), 0.85);
        if (weights[i] > 3000)
            weights[i] = 3000;
        sum += weights[i];
    }
    uint32_t others = wanted - origins, total = 0;
    for (uint32_t i = 0; i < origins; i++) {
        counts[i] = 1 + (uint32_t)(others * (weights[i] / sum));
        total += counts[i];
    }
    for (uint32_t i = 0; total < wanted; i = (i + 1) % origins) {
        counts[i]++;
        total++;
    }
    free(weights);
    return counts;
}

static void write_family(bool six, uint32_t wanted) {
    if (wanted == 0)
        return;
    uint32_t *order = zeros(ases, sizeof *order);
    for (uint32_t as = 0; as < ases; as++)
        order[as] = as;
    for (uint32_t i = ases - 1; i > 0; i--) {
        uint32_t j = below(i + 1), as = order[i];
        order[i] = order[j];
        order[j] = as;
    }
    uint32_t origins = six ? ases * 45 / 100 : ases;
    if (origins > wanted)
        origins = wanted;
    uint32_t *counts = draw_prefix_counts(origins, wanted);
    next_address = six ? 0 : 1 << 24;
    for (uint32_t i = 0; i < origins; i++)
        write_origin(order[i], counts[i], six);
    free(counts);
    free(order);
}

static void write_dump(void) {
    from_customers = zeros(ases, sizeof *from_customers);
    from_others = zeros(ases, sizeof *from_others);
    on_leak = zeros(ases, sizeof *on_leak);
    held_in = zeros(ases, sizeof *held_in);
    paths = zeros(vantages, sizeof *paths);
    paths_count = zeros(vantages, sizeof *paths_count);
    dump = opened(dump_name, "wb");
    if (!version1)
        write_peers();
    uint32_t six = (uint32_t)((uint64_t)prefixes * v6_percent / 100);
    write_family(false, prefixes - six);
    write_family(true, six);
    closed(dump, dump_name);
}

/* --- The command --- */

static _Noreturn void refuse(void) {
    fprintf(stderr, "usage: internet [OPTION ..] DUMP; the head of internet.c tells the options\n");
    exit(2);
}

/* Where the number of an option goes. */
static uint32_t *number_option(const char *word) {
    static const struct {
        const char *word;
        uint32_t *number;
    } options[] = {{"--ases", &ases},           {"--peerings", &peerings}, {"--prefixes", &prefixes},      {"--v6", &v6_percent},
                   {"--vantages", &vantages},   {"--day", &day},           {"--leak", &leaked_ppm},        {"--set", &set_ppm},
                   {"--private", &private_ppm}, {"--poison", &poisoned_ppm}, {"--changed", &changed_ppm}};
    for (size_t i = 0; i < sizeof options / sizeof *options; i++)
        if (strcmp(word, options[i].word) == 0)
            return options[i].number;
    return NULL;
}

static void read_words(int count, char **words) {
    for (int i = 1; i < count; i++) {
        bool more = i + 1 < count;
        if (strcmp(words[i], "--v1") == 0)
            version1 = true;
        else if (strcmp(words[i], "--truth") == 0 && more)
            truth_name = words[++i];
        else if (strcmp(words[i], "--seed") == 0 && more)
            seed = strtoull(words[++i], NULL, 10);
        else if (number_option(words[i]) != NULL && more) {
            *number_option(words[i]) = (uint32_t)strtoul(words[i + 1], NULL, 10);
            i++;
        } else if (words[i][0] != '-' && dump_name == NULL)
            dump_name = words[i];
        else
            refuse();
    }
    if (dump_name == NULL || ases < 100 || ases > 350000 || vantages < 1 || vantages > 1000 || v6_percent > 100)
        refuse();
}

int main(int count, char **words) {
    read_words(count, words);
    state = seed * 0x2545f4914f6cdd1d + 1;
    make_networks();
    draw_vantage_points();
    day_state = ~(state + day);
    write_dump();
    printf("%u networks, %u of them Tier 1, %u contracts, %u peerings; ", ases, tier1, customers.count, lefts.count);
    printf("%u prefixes, %llu routes, %llu of them to leaked prefixes\n", sequence, (unsigned long long)routes,
           (unsigned long long)leaked_routes);
    return 0;
}
