// A processor, the monitor and a memory: `monitored [TRANSACTIONS] [LOST]`. With a second number the memory
// loses this write. The status is 1 if the monitor found an error, or a read was never answered.
#include "kroft_monitor.h"

#include <cinttypes>
#include <cstdlib>
#include <cstring>

namespace {

constexpr uint64_t BASE = 0x80000000;
constexpr unsigned BYTES = 4096;

struct memory : sc_core::sc_module {
    tlm_utils::simple_target_socket<memory> in{"in"};
    std::vector<uint8_t> bytes;
    uint64_t writes = 0, lost;

    memory(sc_core::sc_module_name name, uint64_t lost) : sc_module(name), bytes(BYTES), lost(lost) {
        in.register_b_transport(this, &memory::transport);
    }

    void transport(tlm::tlm_generic_payload &p, sc_core::sc_time &delay) {
        uint64_t at = p.get_address() - BASE;
        const uint8_t *enable = p.get_byte_enable_ptr();
        if (p.get_address() < BASE || at + p.get_data_length() > BYTES) {
            p.set_response_status(tlm::TLM_ADDRESS_ERROR_RESPONSE);
            return;
        }
        bool keeps = p.is_write() && ++writes != lost;
        unsigned width = p.get_streaming_width();
        for (unsigned i = 0; i < p.get_data_length(); i++) {
            if (enable && enable[i % p.get_byte_enable_length()] != TLM_BYTE_ENABLED) continue;
            if (p.is_read()) p.get_data_ptr()[i] = bytes[at + i % width];
            else if (keeps) bytes[at + i % width] = p.get_data_ptr()[i];
        }
        delay += sc_core::sc_time(10, sc_core::SC_NS);
        p.set_response_status(tlm::TLM_OK_RESPONSE);
    }
};

struct processor : sc_core::sc_module {
    tlm_utils::simple_initiator_socket<processor> out{"out"};
    uint64_t transactions;
    SC_HAS_PROCESS(processor);

    processor(sc_core::sc_module_name name, uint64_t transactions) : sc_module(name), transactions(transactions) {
        SC_THREAD(run);
    }

    void run() {
        uint32_t bits = 1;
        auto random_bits = [&] {
            bits ^= bits << 13;
            bits ^= bits >> 17;
            bits ^= bits << 5;
            return bits;
        };
        for (uint64_t n = 0; n < transactions; n++) {
            tlm::tlm_generic_payload p;
            uint8_t data[16], enable[3];
            sc_core::sc_time delay = sc_core::SC_ZERO_TIME;
            for (auto &byte : data) byte = uint8_t(random_bits());
            for (auto &byte : enable) byte = random_bits() % 3 ? TLM_BYTE_ENABLED : TLM_BYTE_DISABLED;
            p.set_command(random_bits() % 2 ? tlm::TLM_READ_COMMAND : tlm::TLM_WRITE_COMMAND);
            p.set_data_ptr(data);
            p.set_data_length(1 + random_bits() % sizeof data);
            p.set_streaming_width(random_bits() % 4 ? p.get_data_length() : 1 + random_bits() % p.get_data_length());
            p.set_address(BASE + random_bits() % (BYTES - sizeof data));
            if (random_bits() % 2) {
                p.set_byte_enable_ptr(enable);
                p.set_byte_enable_length(sizeof enable);
            }
            out->b_transport(p, delay);
            wait(delay);
        }
        sc_core::sc_stop();
    }
};

} // namespace

int sc_main(int argc, char **argv) {
    processor cpu("cpu", argc > 1 ? strtoull(argv[1], nullptr, 10) : 100000);
    kroft_monitor monitor("monitor", BASE, BYTES / 4);
    memory mem("memory", argc > 2 ? strtoull(argv[2], nullptr, 10) : 0);
    cpu.out.bind(monitor.in);
    monitor.out.bind(mem.in);
    sc_core::sc_report_handler::set_actions(sc_core::SC_ERROR, sc_core::SC_DISPLAY | sc_core::SC_STOP);
    sc_core::sc_start();
    printf("%" PRIu64 " steps judged, %" PRIu64 " wrong, %u words unanswered\n", monitor.steps, monitor.errors, monitor.unanswered());
    return monitor.errors == 0 && monitor.unanswered() == 0 ? 0 : 1;
}
