/* kroft::Machine: over random accesses against an array, its views in a scene by hand, and a drive. */
#include "../kroft.hpp"

#include <cstdio>
#include <map>
#include <random>

namespace {

int failures = 0;

void check(bool holds, const char *what) {
    if (holds) return;
    failures++;
    std::printf("not so: %s\n", what);
}

bool same(const kroft_word &one, const kroft_word &other) { return std::memcmp(one.b, other.b, sizeof one.b) == 0; }
bool is_refused(const kroft_answer &answer, uint32_t cause) { return answer.kind == KROFT_REFUSED && answer.cause == cause; }

/* Loads and stores at random, with moves between them: each value is what the array held at the load's acceptance. */
void random_accesses() {
    const uint32_t words = 64;
    std::vector<kroft_word> image(words);
    for (uint32_t at = 0; at < words; at++) image[at] = {{uint8_t(at), 1, 2, 3}};
    kroft::Machine machine({2, 4, 4, 4, words, 2, 3, 4, 6, 5}, image);
    std::vector<kroft_word> flat = image;
    std::map<uint16_t, kroft_word> owed;
    std::mt19937 random(7);
    int values = 0, refused = 0;
    auto move = [&] {
        std::optional<kroft::Step> made = machine.pump();
        if (!made || made->answer.kind != KROFT_VALUE) return made.has_value();
        check(made->event.kind == KROFT_TAKE && owed.count(made->answer.tag) == 1, "a value that is owed");
        check(same(made->answer.word, owed[made->answer.tag]), "the word that flat memory held");
        owed.erase(made->answer.tag);
        values++;
        return true;
    };
    for (int n = 0; n < 20000; n++) {
        uint16_t tag = uint16_t(random() % 8);
        uint32_t at = random() % words;
        kroft_word word = {{uint8_t(random()), uint8_t(random()), uint8_t(random()), uint8_t(random())}};
        uint8_t lanes = uint8_t(random() % 16);
        bool is_store = random() % 2 == 0;
        kroft_answer answer = is_store ? machine.store(at, word, lanes) : machine.load(tag, at);
        refused += answer.kind == KROFT_REFUSED;
        if (answer.kind == KROFT_ACCEPTED && is_store) {
            for (int k = 0; k < 4; k++)
                if (lanes >> k & 1) flat[at].b[k] = word.b[k];
        } else if (answer.kind == KROFT_ACCEPTED) {
            check(owed.count(tag) == 0, "a tag that is free");
            owed[tag] = flat[at];
        }
        for (unsigned moves = random() % 6; moves > 0; moves--) move();
    }
    while (move()) {}
    check(owed.empty() && machine.weight() == 0, "all loads have their values");
    check(values > 3000 && refused > 1000, "values and refusals");
    for (uint32_t block = 0; block < words / 4; block++) {
        kroft_answer answer = machine.evict(block);
        check(answer.kind == KROFT_ACCEPTED || is_refused(answer, KROFT_NOT_PRESENT), "a block that is given up, or isn't there");
        while (move()) {}
    }
    check(machine.settled(), "memory has everything");
    for (uint32_t at = 0; at < words; at++) {
        std::optional<kroft_word> word = machine.bank_word(at);
        check(word && same(*word, flat[at]), "the word in its bank");
    }
    check(!machine.bank_word(words), "no word beyond memory");
}

/* Block 1 is on its way for a load of word 5, and a store of byte 0 of it has joined. */
void a_scene() {
    kroft::Machine machine;
    check(machine.find(5) == kroft::Lookup::Miss && !machine.find(1024), "a miss, and no such word");
    check(machine.load(7, 5).kind == KROFT_ACCEPTED, "a load");
    check(machine.find(5) == kroft::Lookup::Join, "a join");
    check(machine.store(5, {{0xaa, 0, 0, 0}}, 1).kind == KROFT_ACCEPTED, "a store");
    check(is_refused(machine.load(7, 6), KROFT_TAG_IN_USE), "a tag in use");
    check(is_refused(machine.store(5, {}, 0), KROFT_NO_LANES), "no lanes");
    std::optional<kroft_register_view> slot = machine.miss_register(0);
    check(slot && slot->valid == 1 && slot->block == 1 && slot->processed == 0 && !machine.miss_register(8), "the register");
    std::optional<kroft_field_view> word = machine.field(0, 1);
    check(word && word->send == 1 && word->targets == 1 && word->tag == 7 && word->code == 1 && !machine.field(0, 4), "its word");
    std::optional<kroft_target_view> load = machine.target(0, 1, 0);
    check(load && load->tag == 7 && load->lanes == 0 && !machine.target(0, 1, 1), "the load that waits");
    std::optional<kroft_frame_view> frame = machine.frame(slot->frame);
    check(frame && frame->valid == 1 && frame->block == 1 && !machine.frame(8), "the frame");
    std::optional<kroft_frame_word_view> held = machine.frame_word(slot->frame, 1);
    check(held && held->word.b[0] == 0xaa && held->dirty == 1, "the dirty byte");
    /* word 5 lies in bank 1, at place 1 of it */
    std::optional<kroft_command_view> command = machine.bank_command(1, 0);
    check(command && command->kind == KROFT_READ && command->i == 1 && command->place == 1 && !machine.bank_command(4, 0), "the command");
    check(!machine.bank_answer(1, 0), "no answer yet");
    check(machine.apply(kroft::event_of(KROFT_SERVE, 1)).kind == KROFT_MOVED, "a service");
    std::optional<kroft_arrival_view> answer = machine.bank_answer(1, 0);
    check(answer && answer->slot == 0 && answer->i == 1, "the bank's answer");
    check(machine.apply(kroft::event_of(KROFT_ARRIVE, 1)).kind == KROFT_MOVED, "an arrival");
    std::optional<kroft_arrival_view> top = machine.stack_entry(0);
    check(top && top->i == 1 && !machine.stack_entry(1), "the input stack");
    check(machine.find(5) == kroft::Lookup::Hit && !machine.reply(0), "a hit, and no reply yet");
    check(machine.apply(kroft::event_of(KROFT_PROCESS, 0)).kind == KROFT_MOVED, "the word is processed");
    std::optional<kroft_answer> reply = machine.reply(0);
    check(reply && reply->kind == KROFT_VALUE && reply->tag == 7 && same(reply->word, {{0, 0, 0, 0}}), "what the load was owed");
    check(!machine.queue_entry(0), "nothing to write");
    while (machine.pump()) {}
    check(machine.evict(1).kind == KROFT_ACCEPTED, "the block is given up");
    std::optional<kroft_queued_view> queued = machine.queue_entry(0);
    check(queued && queued->at == 5 && queued->lanes == 1 && queued->word.b[0] == 0xaa, "its dirty word");
}

/* One load of a machine at rest, whose banks serve 10 rounds after they began: three more rounds until it is answered. */
void a_drive() {
    kroft::Machine machine;
    kroft_counts counts = machine.drive({kroft::load_of(1, 0)});
    check(counts.accepted == 1 && counts.misses == 1 && counts.values == 1 && counts.registers == 1, "one miss");
    check(counts.rounds == 16 && counts.waited == 11 && counts.longest == 11, "its rounds");
    bool threw = false;
    try {
        machine.drive({kroft::event_of(KROFT_DRAIN, 0)});
    } catch (const std::invalid_argument &) {
        threw = true;
    }
    check(threw && machine.drive({}).accepted == 0, "no request");
}

/* The same load one round at a time: accepted in round 1 and answered in round 12, and the rest of its block comes in the three
   rounds behind that. */
void rounds_one_at_a_time() {
    kroft::Machine machine(kroft::USUAL_SHAPE, std::vector<kroft_word>(1024, kroft_word{{5, 6, 7, 8}}));
    machine.begin_rounds();
    kroft_round_row row = machine.round(kroft::load_of(3, 0));
    check(row.round == 1 && row.outcome == KROFT_ROUND_ACCEPTED && row.found == KROFT_MISS && !row.answered, "accepted");
    row = machine.round(kroft::load_of(3, 1));
    check(row.round == 2 && row.outcome == KROFT_ROUND_LOST && row.cause == KROFT_TAG_IN_USE, "lost");
    for (uint64_t round = 3; round < 16; round++) {
        row = machine.round();
        check(row.round == round && row.outcome == KROFT_ROUND_IDLE && row.answered == (round == 12), "answered in its round");
        check(!row.answered || (row.tag == 3 && same(row.word, {{5, 6, 7, 8}})), "with its word");
    }
    kroft_counts counts = machine.round_counts();
    check(counts.rounds == 15 && counts.values == 1 && counts.waited == 11 && counts.lost_tag_in_use == 1, "counted");
    check(machine.weight() == 0 && machine.find(3) == kroft::Lookup::Hit, "all came");
    int threw = 0;
    for (auto misuse : {+[](kroft::Machine &m) { m.load(1, 0); }, +[](kroft::Machine &m) { m.pump(); }, +[](kroft::Machine &m) { m.drive({}); }}) {
        try {
            misuse(machine);
        } catch (const std::logic_error &) {
            threw++;
        }
    }
    for (auto misuse : {+[](kroft::Machine &m) { m.round(kroft::event_of(KROFT_DRAIN, 0)); }, +[](kroft::Machine &m) { m.begin_rounds(1001); }}) {
        try {
            misuse(machine);
        } catch (const std::invalid_argument &) {
            threw++;
        }
    }
    check(threw == 5 && machine.round_counts().rounds == 15, "rounds are under way");
    machine.end_rounds();
    threw = 0;
    for (auto misuse : {+[](kroft::Machine &m) { m.round(); }, +[](kroft::Machine &m) { m.round_counts(); }, +[](kroft::Machine &m) { m.end_rounds(); }}) {
        try {
            misuse(machine);
        } catch (const std::logic_error &) {
            threw++;
        }
    }
    check(threw == 3 && machine.load(1, 0).kind == KROFT_ACCEPTED, "they ended");
}

void what_is_refused() {
    kroft_shape shape = kroft::USUAL_SHAPE;
    for (auto [number, fault] : {std::pair<uint32_t, uint32_t>{0, KROFT_FAIL_BAD_WORDS}, {0xffffffff, KROFT_FAIL_BAD_WORDS}, {6, KROFT_FAIL_BAD_WORDS}}) {
        shape.words = number;
        uint32_t told = KROFT_OK;
        try {
            kroft::Machine machine(shape);
        } catch (const kroft::BadShape &refused) {
            told = refused.fault;
        }
        check(told == fault, "a memory that there isn't");
    }
    uint32_t told = KROFT_OK;
    try {
        kroft::Machine machine(kroft::USUAL_SHAPE, std::vector<kroft_word>(3));
    } catch (const kroft::BadShape &refused) {
        told = refused.fault;
    }
    check(told == KROFT_FAIL_BAD_IMAGE, "an image of another length");
    kroft::Machine machine;
    kroft::Machine moved(std::move(machine));
    check(moved.load(1, 0).kind == KROFT_ACCEPTED && moved.weight() > 0, "moved");
    kroft::Machine assigned;
    assigned = std::move(moved);
    check(assigned.weight() > 0, "assigned");
    int threw = 0;
    for (kroft::Machine *empty : {&machine, &moved}) {
        try {
            empty->load(1, 0);
        } catch (const std::logic_error &) {
            threw++;
        }
    }
    try {
        assigned.apply(kroft::event_of(9, 0));
    } catch (const std::invalid_argument &) {
        threw++;
    }
    check(threw == 3, "two machines that were moved from, and no event");
}

} // namespace

int main() {
    random_accesses();
    a_scene();
    a_drive();
    rounds_one_at_a_time();
    what_is_refused();
    return failures == 0 ? 0 : 1;
}
