// The monitor before a design: `monitor STYLE LAW BUG [TRANSACTIONS [SEED]]`.
//
// STYLE is `nb`: one initiator of nb_transport with many transactions on their way, answered in any order; or
// `b`: eight initiators of b_transport. LAW is `flat`, and then the design is a cache, and BUG a number of replay::Bug;
// or `regular` or `atomic`, and then it is a memory in which nobody sees when a transaction takes effect, and BUG a
// number of replay::HiddenBug. The status is 0 if nothing was wrong, 3 if something was, and 1 if the run wasn't as it
// should be.
#include "../../c++/tests/hidden_memory.hpp"
#include "../../c++/tests/traffic.hpp"
#include "../kroft_tlm.hpp"

#include <cstdlib>
#include <cstring>
#include <ctime>
#include <map>

namespace {

using tlm::tlm_generic_payload;
const sc_core::sc_time CYCLE(1, sc_core::SC_NS);

// What a design does in a cycle.
struct Design {
    std::function<bool(const replay::Request &)> accept;
    std::function<std::optional<replay::Answer>()> tick;

    template <class Memory> static Design of(Memory &memory) {
        return {[&](const replay::Request &request) { return memory.accept(request); }, [&] { return memory.tick(); }};
    }
};

// The design behind a socket: it takes requests in the order in which they come, and answers as its own answers do.
struct Target : sc_core::sc_module {
    tlm_utils::simple_target_socket<Target> socket{"socket"};
    SC_HAS_PROCESS(Target);

    Target(sc_core::sc_module_name name, Design given) : sc_module(name), design(std::move(given)) {
        socket.register_b_transport(this, &Target::b_transport);
        socket.register_nb_transport_fw(this, &Target::nb_transport_fw);
        SC_THREAD(run);
    }

private:
    Design design;

    struct Entry {
        tlm_generic_payload *payload;
        sc_core::sc_event *done; // of b_transport; else the answer goes back by nb_transport_bw
    };

    static replay::Request request_of(const tlm_generic_payload &payload, uint64_t id) {
        replay::Request request;
        request.is_store = payload.is_write();
        request.id = id;
        request.address = payload.get_address();
        request.size = payload.get_data_length();
        request.enables = 0;
        const uint8_t *enable = payload.get_byte_enable_ptr();
        for (unsigned i = 0; i < request.size; i++)
            if (!enable || enable[i % payload.get_byte_enable_length()] == TLM_BYTE_ENABLED) request.enables |= uint64_t{1} << i;
        memcpy(request.data.data(), payload.get_data_ptr(), request.size);
        return request;
    }

    void b_transport(tlm_generic_payload &payload, sc_core::sc_time &) {
        sc_core::sc_event done;
        take(payload, &done);
        wait(done);
    }

    tlm::tlm_sync_enum nb_transport_fw(tlm_generic_payload &payload, tlm::tlm_phase &phase, sc_core::sc_time &) {
        if (phase == tlm::END_RESP) return tlm::TLM_COMPLETED;
        take(payload, nullptr);
        phase = tlm::END_REQ;
        return tlm::TLM_UPDATED;
    }

    void take(tlm_generic_payload &payload, sc_core::sc_event *done) {
        waiting.push_back(request_of(payload, next));
        open.emplace(next++, Entry{&payload, done});
    }

    void run() {
        for (;;) {
            wait(CYCLE);
            if (!waiting.empty() && design.accept(waiting.front())) waiting.pop_front();
            if (auto answer = design.tick()) give(*answer);
        }
    }

    void give(const replay::Answer &answer) {
        Entry entry = open.at(answer.id);
        open.erase(answer.id);
        if (!answer.is_store) copy(answer, *entry.payload);
        entry.payload->set_response_status(tlm::TLM_OK_RESPONSE);
        if (entry.done) {
            entry.done->notify();
            return;
        }
        tlm::tlm_phase phase = tlm::BEGIN_RESP;
        sc_core::sc_time delay = sc_core::SC_ZERO_TIME;
        socket->nb_transport_bw(*entry.payload, phase, delay);
    }

    static void copy(const replay::Answer &answer, tlm_generic_payload &payload) {
        const uint8_t *enable = payload.get_byte_enable_ptr();
        for (unsigned i = 0; i < payload.get_data_length(); i++)
            if (!enable || enable[i % payload.get_byte_enable_length()] == TLM_BYTE_ENABLED) payload.get_data_ptr()[i] = answer.data[i];
    }

    std::deque<replay::Request> waiting;
    std::map<uint64_t, Entry> open;
    uint64_t next = 0;
};

// A transaction with the arrays that it points to.
struct Transaction {
    tlm_generic_payload payload;
    uint8_t data[64], enable[64];
    bool busy = false;

    void become(const replay::Request &request) {
        payload.set_command(request.is_store ? tlm::TLM_WRITE_COMMAND : tlm::TLM_READ_COMMAND);
        payload.set_address(request.address);
        payload.set_data_ptr(data);
        payload.set_data_length(request.size);
        payload.set_streaming_width(request.size);
        bool all = true;
        for (unsigned i = 0; i < request.size; i++) {
            data[i] = request.data[i];
            enable[i] = request.has(i) ? TLM_BYTE_ENABLED : TLM_BYTE_DISABLED;
            all &= request.has(i);
        }
        payload.set_byte_enable_ptr(all ? nullptr : enable);
        payload.set_byte_enable_length(all ? 0 : request.size);
        payload.set_response_status(tlm::TLM_INCOMPLETE_RESPONSE);
        busy = true;
    }
};

// What begins the transactions of a seed, in either style.
struct Initiator : sc_core::sc_module {
    tlm_utils::simple_initiator_socket<Initiator> socket{"socket"};
    uint64_t begun = 0, ended = 0;
    SC_HAS_PROCESS(Initiator);

    Initiator(sc_core::sc_module_name name, bool blocking, uint64_t wanted, replay::Traffic given, size_t at_once)
        : sc_module(name), traffic(std::move(given)), count(wanted), transactions(at_once) {
        socket.register_nb_transport_bw(this, &Initiator::nb_transport_bw);
        if (blocking) {
            for (unsigned i = 0; i < 8; i++) sc_core::sc_spawn([this, i] { run_blocking(transactions[i]); });
        } else {
            SC_THREAD(run);
        }
    }

private:
    void run_blocking(Transaction &transaction) {
        while (begun < count) {
            begun++;
            transaction.become(traffic.next());
            sc_core::sc_time delay = sc_core::SC_ZERO_TIME;
            socket->b_transport(transaction.payload, delay);
            ended++;
            wait(CYCLE);
        }
    }

    void run() {
        while (begun < count) {
            wait(CYCLE);
            auto idle = std::find_if(transactions.begin(), transactions.end(), [](const Transaction &each) { return !each.busy; });
            if (idle == transactions.end()) continue;
            begun++;
            idle->become(traffic.next());
            tlm::tlm_phase phase = tlm::BEGIN_REQ;
            sc_core::sc_time delay = sc_core::SC_ZERO_TIME;
            socket->nb_transport_fw(idle->payload, phase, delay);
        }
    }

    tlm::tlm_sync_enum nb_transport_bw(tlm_generic_payload &payload, tlm::tlm_phase &, sc_core::sc_time &) {
        for (Transaction &each : transactions)
            if (&each.payload == &payload) each.busy = false;
        ended++;
        return tlm::TLM_COMPLETED;
    }

    replay::Traffic traffic;
    uint64_t count;
    std::vector<Transaction> transactions;
};

} // namespace

int sc_main(int argc, char **argv) {
    if (argc < 4) return 1;
    bool blocking = !strcmp(argv[1], "b"), flat = !strcmp(argv[2], "flat");
    int bug = atoi(argv[3]);
    uint64_t count = argc > 4 ? strtoull(argv[4], nullptr, 10) : 100000;
    uint64_t seed = argc > 5 ? strtoull(argv[5], nullptr, 10) : 1;
    // (few lines, that transactions meet often, and a judge of the atomic law that isn't asked for too many orders)
    const kroft_traffic_plan few_lines = {replay::Traffic::BASE, 2, 64, 16, 2, 0, 8, 2, 0, 128, 96, 0, 0};
    Initiator initiator("initiator", blocking, count, flat ? replay::Traffic(seed) : replay::Traffic(seed, few_lines), flat ? 24 : 8);
    kroft::Law law = !strcmp(argv[2], "atomic") ? kroft::Law::Atomic : kroft::Law::Regular;
    kroft::Watch watch = flat ? kroft::Watch() : kroft::Watch(kroft::History(law));
    kroft::Monitor<> monitor("monitor", watch);
    replay::Cache cache{replay::Bug(bug)};
    replay::HiddenMemory memory{replay::HiddenBug(bug)};
    Target target("target", flat ? Design::of(cache) : Design::of(memory));
    initiator.socket.bind(monitor.in);
    monitor.out.bind(target.socket);
    sc_core::sc_report_handler::set_actions(sc_core::SC_ERROR, sc_core::SC_DISPLAY | sc_core::SC_STOP);

    clock_t began = clock();
    while (initiator.ended < count && watch.errors() == 0 && sc_core::sc_time_stamp() < 40 * count * CYCLE) sc_core::sc_start(1000 * CYCLE);
    if (watch.errors() == 0) sc_core::sc_stop(); // an error has stopped it
    double seconds = double(clock() - began) / CLOCKS_PER_SEC;
    size_t unanswered = watch.unanswered().size();
    printf("%s, %s, bug %d: %llu transactions, %llu wrong, %zu unanswered, %.1f s of processor time\n", argv[1], argv[2], bug,
           (unsigned long long)initiator.begun, (unsigned long long)watch.errors(), unanswered, seconds);
    if (watch.errors() > 0 || unanswered > 0) return 3;
    bool fast = seconds < double(count) * 60 / 1000000; // a million a minute
    bool busy = flat ? cache.hits_under_miss > count / 20 && cache.secondary_misses > count / 50
                     : memory.beside > count / 2 && memory.passed > count / 5;
    return initiator.ended == count && watch.accesses() > count * 9 / 10 && fast && busy ? 0 : 1;
}
