// What a monitor makes of transactions that are long, streamed, outside of memory, failed, or not as they
// should be: each with the number of errors that it has to be, whether flat memory judges it or a history. The status is
// 0 only if all is so.
#include "../kroft_tlm.hpp"

#include <cstring>
#include <deque>

namespace {

using tlm::tlm_generic_payload;

// A memory of 4 KiB that answers as it is told to.
struct Memory : sc_core::sc_module {
    tlm_utils::simple_target_socket<Memory> socket{"socket"};
    std::vector<uint8_t> bytes = std::vector<uint8_t>(4096);
    bool fails = false, corrupts = false, lies_outside = false;
    std::deque<tlm_generic_payload *> held; // requests of nb_transport

    explicit Memory(sc_core::sc_module_name name) : sc_module(name) {
        socket.register_b_transport(this, &Memory::b_transport);
        socket.register_nb_transport_fw(this, &Memory::nb_transport_fw);
        socket.register_transport_dbg(this, &Memory::transport_dbg);
    }

    void b_transport(tlm_generic_payload &payload, sc_core::sc_time &) {
        bool inside = payload.get_address() < bytes.size();
        if (inside && !fails) use(payload);
        bool ok = inside ? !fails : lies_outside;
        payload.set_response_status(ok ? tlm::TLM_OK_RESPONSE : tlm::TLM_ADDRESS_ERROR_RESPONSE);
        payload.set_address(0xbad); // as an interconnect may
    }

    void use(tlm_generic_payload &payload) {
        unsigned width = std::min(payload.get_streaming_width(), payload.get_data_length());
        if (payload.get_address() + width > bytes.size()) return; // (a debug write beyond its end says that it wrote)
        for (unsigned i = 0; i < payload.get_data_length(); i++) {
            uint8_t &byte = bytes[payload.get_address() + i % width];
            if (payload.is_write()) byte = payload.get_data_ptr()[i];
            else payload.get_data_ptr()[i] = uint8_t(byte + (corrupts && i == payload.get_data_length() - 1));
        }
    }

    tlm::tlm_sync_enum nb_transport_fw(tlm_generic_payload &payload, tlm::tlm_phase &phase, sc_core::sc_time &) {
        if (phase == tlm::BEGIN_REQ) {
            use(payload);
            held.push_back(&payload);
        }
        return tlm::TLM_ACCEPTED;
    }

    void answer(size_t place) {
        tlm_generic_payload &payload = *held[place];
        payload.set_response_status(tlm::TLM_OK_RESPONSE);
        tlm::tlm_phase phase = tlm::BEGIN_RESP;
        sc_core::sc_time delay;
        socket->nb_transport_bw(payload, phase, delay);
    }

    unsigned transport_dbg(tlm_generic_payload &payload) {
        use(payload);
        return payload.get_data_length();
    }
};

struct Bench : sc_core::sc_module {
    tlm_utils::simple_initiator_socket<Bench> socket{"socket"};
    kroft::Watch watch;
    kroft::Monitor<> monitor{"monitor", watch};
    Memory memory{"memory"};
    uint8_t data[300] = {};
    int wrong = 0;

    Bench(sc_core::sc_module_name name, kroft::Watch given) : sc_module(name), watch(std::move(given)) {
        socket.bind(monitor.in);
        monitor.out.bind(memory.socket);
        socket.register_nb_transport_bw(this, &Bench::nb_transport_bw);
    }

    tlm::tlm_sync_enum nb_transport_bw(tlm_generic_payload &, tlm::tlm_phase &, sc_core::sc_time &) { return tlm::TLM_COMPLETED; }

    void shape(tlm_generic_payload &payload, bool write, uint64_t address, unsigned length, unsigned width) {
        payload.set_command(write ? tlm::TLM_WRITE_COMMAND : tlm::TLM_READ_COMMAND);
        payload.set_address(address);
        payload.set_data_ptr(data);
        payload.set_data_length(length);
        payload.set_streaming_width(width);
    }

    // A transaction that has to be so many errors.
    void expect(int line, uint64_t errors, bool write, uint64_t address, unsigned length, unsigned width) {
        uint64_t before = watch.errors();
        tlm_generic_payload payload;
        sc_core::sc_time delay;
        shape(payload, write, address, length, width);
        socket->b_transport(payload, delay);
        check(line, watch.errors() - before == errors);
    }

    void check(int line, bool holds) {
        if (holds) return;
        wrong++;
        printf("line %d isn't so\n", line);
    }

    void blocking() {
        for (unsigned i = 0; i < sizeof data; i++) data[i] = uint8_t(i * 7 + 1);
        expect(__LINE__, 0, true, 0x101, 300, 300);
        expect(__LINE__, 0, false, 0x100, 299, 299);
        expect(__LINE__, 0, true, 0x200, 12, 4); // the last beat stays
        expect(__LINE__, 0, false, 0x200, 8, 4);
        expect(__LINE__, 0, false, 4096, 4, 4); // fails, as it should
        memory.fails = true;
        expect(__LINE__, 0, false, 0x100, 4, 4);
        expect(__LINE__, 2, true, 0x100, 80, 80); // two parts of a write that failed
        memory.fails = false;
        memory.corrupts = true;
        expect(__LINE__, 1, false, 0x180, 130, 130); // the last of three parts
        expect(__LINE__, 1, false, 0x180, 1, 1);
        memory.corrupts = false;
        memory.lies_outside = true;
        expect(__LINE__, 1, false, 4096, 4, 4);
        check(__LINE__, watch.unanswered().empty());
    }

    // A read that doesn't ask for all of its bytes is one access: those that it asks for are judged, and no other.
    void enables() {
        uint8_t some[] = {TLM_BYTE_ENABLED, TLM_BYTE_ENABLED, TLM_BYTE_DISABLED, TLM_BYTE_ENABLED, TLM_BYTE_DISABLED};
        for (bool last : {false, true}) {
            uint64_t before = watch.errors(), accesses = watch.accesses();
            tlm_generic_payload payload;
            sc_core::sc_time delay;
            shape(payload, false, 0x108, 5, 5);
            some[4] = last ? TLM_BYTE_ENABLED : TLM_BYTE_DISABLED;
            payload.set_byte_enable_ptr(some);
            payload.set_byte_enable_length(5);
            memory.corrupts = true; // the last byte
            socket->b_transport(payload, delay);
            memory.corrupts = false;
            check(__LINE__, watch.errors() - before == last && watch.accesses() - accesses == 1);
        }
    }

    void debug() {
        tlm_generic_payload payload;
        tlm::tlm_dmi dmi;
        shape(payload, true, 0x300, 100, 100);
        check(__LINE__, socket->transport_dbg(payload) == 100);
        expect(__LINE__, 0, false, 0x300, 100, 100);
        check(__LINE__, !socket->get_direct_mem_ptr(payload, dmi));
        uint64_t before = watch.errors(), told = watch.accesses();
        shape(payload, true, 4032, 130, 130); // of three parts the first is in memory
        socket->transport_dbg(payload);
        check(__LINE__, watch.errors() == before + 2 && watch.accesses() == told + 1);
    }

    // With the actions that the README tells an error goes on, and as SystemC has it else it is thrown.
    void actions() {
        uint64_t before = watch.errors();
        memory.lies_outside = true;
        sc_core::sc_report_handler::set_actions("kroft", sc_core::SC_ERROR, sc_core::SC_LOG);
        expect(__LINE__, 1, false, 4096, 4, 4);
        sc_core::sc_report_handler::set_actions("kroft", sc_core::SC_ERROR, sc_core::SC_DEFAULT_ERROR_ACTIONS & ~sc_core::SC_LOG);
        bool threw = false;
        try {
            expect(__LINE__, 1, false, 4096, 4, 4);
        } catch (const sc_core::sc_report &report) {
            threw = std::strcmp(report.get_msg_type(), "kroft") == 0;
        }
        check(__LINE__, threw && watch.errors() == before + 2);
        sc_core::sc_report_handler::set_actions("kroft", sc_core::SC_ERROR, sc_core::SC_DO_NOTHING);
    }

    void begin(tlm_generic_payload &payload) {
        tlm::tlm_phase phase = tlm::BEGIN_REQ;
        sc_core::sc_time delay;
        socket->nb_transport_fw(payload, phase, delay);
    }

    // Answers in another order than the requests; one that comes twice; and a request that is repeated before its
    // answer.
    void non_blocking() {
        uint64_t before = watch.errors();
        uint8_t first[8] = {}, second[8] = {};
        tlm_generic_payload a, b;
        shape(a, false, 0x40, 8, 8);
        a.set_data_ptr(first);
        shape(b, false, 0x44, 8, 8);
        b.set_data_ptr(second);
        auto counted = watch.coverage();
        begin(a);
        begin(b);
        check(__LINE__, monitor.open() == 2 && watch.unanswered().size() == 2);
        memory.answer(1);
        if (counted) check(__LINE__, watch.coverage()->loads == counted->loads + 1 && watch.coverage()->overtaking == counted->overtaking + 1);
        memory.answer(0);
        check(__LINE__, watch.errors() == before && monitor.open() == 0);
        memory.answer(0);
        check(__LINE__, watch.errors() == before + 1);
        begin(a);
        begin(a);
        check(__LINE__, watch.errors() == before + 2 && monitor.open() == 1);
        memory.answer(0);
        check(__LINE__, watch.errors() == before + 2 && monitor.open() == 0);
    }

    // By the atomic law: of thirteen open stores to a byte any may have taken effect, and any of these may have been the last,
    // which are too many pairs. The answer is judged once the unit is forgotten.
    void undecided() {
        uint64_t before = watch.errors();
        int warnings = sc_core::sc_report_handler::get_count(sc_core::SC_WARNING);
        uint8_t load_data[1] = {}, bytes[13] = {1, 2, 3, 4, 5, 6, 7, 8, 9, 10, 11, 12, 13};
        tlm_generic_payload load, stores[13];
        memory.held.clear();
        shape(load, false, 0x43, 1, 1);
        load.set_data_ptr(load_data);
        begin(load);
        for (int i = 0; i < 13; i++) {
            shape(stores[i], true, 0x43, 1, 1);
            stores[i].set_data_ptr(bytes + i);
            begin(stores[i]);
        }
        for (size_t i = 14; i-- > 0;) memory.answer(i);
        check(__LINE__, watch.errors() == before && watch.unanswered().empty());
        check(__LINE__, sc_core::sc_report_handler::get_count(sc_core::SC_WARNING) == warnings + 1);
        expect(__LINE__, 0, false, 0x48, 8, 8);
        memory.corrupts = true;
        expect(__LINE__, 0, false, 0x43, 1, 1); // nothing is known there any more
        expect(__LINE__, 1, false, 0x48, 8, 8);
        memory.corrupts = false;
    }

    // One that gets no answer.
    void no_answer() {
        shape(lost, false, 0x44, 8, 8);
        lost.set_data_ptr(data);
        begin(lost);
        check(__LINE__, watch.unanswered().size() == 1 && watch.unanswered()[0].address == 0x44 && watch.unanswered()[0].size == 8);
    }

    tlm_generic_payload lost;
};

kroft::History counting(kroft::Law law) {
    kroft::History history(law);
    history.cover();
    return history;
}

} // namespace

int sc_main(int, char **) {
    const kroft::Range range{0, 4095};
    Bench flat("flat", kroft::Watch(range)), regular("regular", kroft::Watch(counting(kroft::Law::Regular), range));
    Bench atomic("atomic", kroft::Watch(counting(kroft::Law::Atomic), range));
    Bench *const benches[] = {&flat, &regular, &atomic};
    sc_core::sc_report_handler::set_actions(sc_core::SC_ERROR, sc_core::SC_DO_NOTHING);
    sc_core::sc_report_handler::set_actions(sc_core::SC_WARNING, sc_core::SC_DO_NOTHING);
    sc_core::sc_start(sc_core::SC_ZERO_TIME);
    for (Bench *bench : benches) {
        bench->blocking();
        bench->enables();
        bench->debug();
        bench->non_blocking();
        bench->actions();
    }
    atomic.undecided();
    flat.check(__LINE__, !flat.watch.coverage() && regular.watch.coverage() && atomic.watch.coverage());
    int warnings = sc_core::sc_report_handler::get_count(sc_core::SC_WARNING), wrong = 0;
    for (Bench *bench : benches) bench->no_answer();
    sc_core::sc_stop();
    flat.check(__LINE__, sc_core::sc_report_handler::get_count(sc_core::SC_WARNING) == warnings + 3); // of the transactions without an answer
    for (const Bench *bench : benches) wrong += bench->wrong;
    printf(wrong ? "%d wrong\n" : "all right\n", wrong);
    return wrong != 0;
}
