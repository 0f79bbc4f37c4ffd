// A processor and an approximately timed memory whose responses come in any order, judged by the requests and responses
// alone: `any_order [TRANSACTIONS] [LOST]`. With a second number the memory loses this write. The status is 1 if an answer
// was not lawful, or never came.
#include "kroft.hpp"

#include <systemc>
#include <tlm>
#include <tlm_utils/peq_with_get.h>
#include <tlm_utils/simple_initiator_socket.h>
#include <tlm_utils/simple_target_socket.h>

#include <cinttypes>
#include <cstdio>
#include <cstdlib>
#include <cstring>
#include <map>
#include <random>

namespace {

using sc_core::SC_NS;
using sc_core::sc_time;
using tlm::tlm_generic_payload;

constexpr unsigned BYTES = 64;

sc_time random_time(std::mt19937 &random) { return sc_time(1 + random() % 40, SC_NS); }

// Each transaction takes effect some time after its request, and is answered some time after that.
struct Memory : sc_core::sc_module {
    tlm_utils::simple_target_socket<Memory> in{"in"};

    Memory(sc_core::sc_module_name name, uint64_t lost) : sc_module(name), lost(lost) {
        in.register_nb_transport_fw(this, &Memory::request);
        SC_METHOD(take_effect);
        sensitive << waiting.get_event();
        dont_initialize();
        SC_METHOD(answer);
        sensitive << done.get_event();
        dont_initialize();
    }
    SC_HAS_PROCESS(Memory);

private:
    tlm_utils::peq_with_get<tlm_generic_payload> waiting{"waiting"}, done{"done"};
    uint8_t bytes[BYTES] = {};
    uint64_t writes = 0, lost;
    std::mt19937 random{2};

    tlm::tlm_sync_enum request(tlm_generic_payload &p, tlm::tlm_phase &phase, sc_time &) {
        if (phase != tlm::BEGIN_REQ) return tlm::TLM_ACCEPTED;
        p.acquire();
        waiting.notify(p, random_time(random));
        phase = tlm::END_REQ; // the next request may come
        return tlm::TLM_UPDATED;
    }

    void take_effect() {
        while (tlm_generic_payload *p = waiting.get_next_transaction()) {
            uint8_t *at = bytes + p->get_address();
            if (p->is_read()) std::memcpy(p->get_data_ptr(), at, p->get_data_length());
            else if (++writes != lost) std::memcpy(at, p->get_data_ptr(), p->get_data_length());
            done.notify(*p, random_time(random));
        }
    }

    void answer() {
        while (tlm_generic_payload *p = done.get_next_transaction()) {
            tlm::tlm_phase phase = tlm::BEGIN_RESP;
            sc_time delay = sc_core::SC_ZERO_TIME;
            p->set_response_status(tlm::TLM_OK_RESPONSE);
            in->nb_transport_bw(*p, phase, delay); // the processor completes it at once
            p->release();
        }
    }
};

// Asks for bytes and words, as often as it likes, and tells a history of both ends of each.
struct Processor : sc_core::sc_module, tlm::tlm_mm_interface {
    tlm_utils::simple_initiator_socket<Processor> out{"out"};
    kroft::History history;
    uint64_t wrong = 0;

    Processor(sc_core::sc_module_name name, uint64_t transactions) : sc_module(name), transactions(transactions) {
        out.register_nb_transport_bw(this, &Processor::response);
        SC_THREAD(run);
    }
    SC_HAS_PROCESS(Processor);

    void free(tlm_generic_payload *p) override {
        delete[] p->get_data_ptr();
        delete p;
    }

private:
    uint64_t transactions;
    std::map<tlm_generic_payload *, uint64_t> numbers; // of those that are open
    std::mt19937 random{1};

    void run() {
        for (uint64_t number = 1; number <= transactions && wrong == 0; number++) {
            wait(sc_time(1 + random() % 10, SC_NS));
            unsigned length = 1u << random() % 3;
            auto *p = new tlm_generic_payload(this);
            p->acquire();
            p->set_command(random() % 2 == 0 ? tlm::TLM_READ_COMMAND : tlm::TLM_WRITE_COMMAND);
            p->set_address(random() % (BYTES / length) * length);
            p->set_data_ptr(new uint8_t[length]);
            p->set_data_length(length);
            p->set_streaming_width(length);
            for (unsigned k = 0; k < length; k++) p->get_data_ptr()[k] = static_cast<uint8_t>(random());
            numbers.emplace(p, number);
            judge(*p, number,
                  p->is_read() ? history.load_request(number, p->get_address(), length)
                               : history.store_request(number, p->get_address(), p->get_data_ptr(), length));
            tlm::tlm_phase phase = tlm::BEGIN_REQ;
            sc_time delay = sc_core::SC_ZERO_TIME;
            out->nb_transport_fw(*p, phase, delay);
        }
    }

    tlm::tlm_sync_enum response(tlm_generic_payload &p, tlm::tlm_phase &phase, sc_time &) {
        if (phase != tlm::BEGIN_RESP) return tlm::TLM_ACCEPTED;
        auto at = numbers.find(&p);
        judge(p, at->second,
              p.is_read() ? history.load_response(at->second, p.get_data_ptr(), p.get_data_length()) : history.store_response(at->second));
        numbers.erase(at);
        p.release();
        return tlm::TLM_COMPLETED;
    }

    void judge(const tlm_generic_payload &p, uint64_t number, const kroft::HistoryVerdict &said) {
        if (said) return;
        std::printf("%s: %s %" PRIu64 " of %u bytes at %" PRIu64 ": %s\n", sc_core::sc_time_stamp().to_string().c_str(), p.is_read() ? "load" : "store",
                    number, p.get_data_length(), static_cast<uint64_t>(p.get_address()), said.text());
        wrong++;
    }
};

} // namespace

int sc_main(int argc, char **argv) {
    uint64_t transactions = argc > 1 ? std::strtoull(argv[1], nullptr, 10) : 20000;
    Memory memory("memory", argc > 2 ? std::strtoull(argv[2], nullptr, 10) : 0);
    Processor processor("processor", transactions);
    processor.out.bind(memory.in);
    sc_core::sc_start();
    size_t open = processor.history.open_loads().size() + processor.history.open_stores().size();
    std::printf("%" PRIu64 " transactions at most, %s\n", transactions, processor.wrong != 0 ? "not lawful" : open != 0 ? "some without an answer" : "all lawful");
    return processor.wrong != 0 || open != 0;
}
