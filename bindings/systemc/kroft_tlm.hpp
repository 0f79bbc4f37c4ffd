// Kroft for SystemC: a TLM-2.0 monitor that judges what passes it, over kroft.hpp.
//
// Bind `in` to what begins transactions, and `out` to what answers them:
//
//     kroft::Watch watch({0x8000'0000, 0x8fff'ffff});        // the addresses of the memory behind it
//     kroft::Monitor<> monitor("monitor", watch);
//     cpu.socket.bind(monitor.in);
//     monitor.out.bind(memory.socket);
//
// b_transport and nb_transport pass it unchanged, in time too. A transaction is requested when b_transport is called or
// BEGIN_REQ passes; its answer is judged when the call returns, when BEGIN_RESP passes or when TLM_COMPLETED is
// returned, in whatever order the answers come. To a watch over flat memory, as above, it takes effect at its request.
// Where nobody can say when it does, a watch over a history judges by requests and answers alone, by the history's law:
//
//     kroft::Watch watch(kroft::History(kroft::Law::Atomic), {0x8000'0000, 0x8fff'ffff});
//
// What isn't explained is an error of the report handler under the id "kroft". Its first one ends the run, since SystemC
// throws it out of the transport call, unless the bench says what else is to be done:
//
//     sc_core::sc_report_handler::set_actions("kroft", sc_core::SC_ERROR, sc_core::SC_DISPLAY | sc_core::SC_LOG);
#pragma once

#include "kroft.hpp"

#include <algorithm>
#include <deque>
#include <map>
#include <string>
#include <systemc>
#include <tlm>
#include <tlm_utils/simple_initiator_socket.h>
#include <tlm_utils/simple_target_socket.h>
#include <unordered_map>
#include <vector>

namespace kroft {

/// A judge of the parts of transactions: each has an id of its own, which is never used again. A call returns what is
/// wrong, in words, or nothing.
class PartJudge {
public:
    using Fault = std::optional<std::string>;
    virtual ~PartJudge() = default;
    virtual Fault load(uint64_t id, uint64_t address, unsigned size, uint64_t enables) = 0;
    virtual Fault store(uint64_t id, uint64_t address, unsigned size, const uint8_t *data, uint64_t enables) = 0;
    virtual Fault value(uint64_t id, const uint8_t *data) = 0;
    virtual Fault stored(uint64_t id) = 0;
    virtual Fault failed_load(uint64_t id) = 0;
    virtual Fault failed_store(uint64_t id) = 0;
    virtual std::vector<Access> unanswered() const = 0;
    virtual std::optional<kroft_history_counts> coverage() const { return std::nullopt; }
};

/// By flat memory: a part takes effect at its request.
class FlatParts : public PartJudge {
public:
    FlatParts(Range addresses, Image first_bytes) : judge(addresses, std::move(first_bytes)) {}
    Fault load(uint64_t id, uint64_t address, unsigned size, uint64_t enables) override {
        return fault(judge.load(id, address, size, enables));
    }
    Fault store(uint64_t id, uint64_t address, unsigned size, const uint8_t *data, uint64_t enables) override {
        return fault(judge.store(id, address, size, data, enables));
    }
    Fault value(uint64_t id, const uint8_t *data) override { return fault(judge.value(id, data)); }
    Fault stored(uint64_t id) override { return fault(judge.stored(id)); }
    Fault failed_load(uint64_t id) override { return fault(judge.failed_load(id)); }
    Fault failed_store(uint64_t id) override { return fault(judge.failed_store(id)); }
    std::vector<Access> unanswered() const override { return judge.unanswered(); }

private:
    FlatJudge judge;

    static Fault fault(const Verdict &verdict) { return verdict ? Fault() : Fault(verdict.text()); }
};

/// By a history: a part takes effect between its request and its answer. A part that got a wrong value, or none, is
/// answered all the same, and not among those that are unanswered. By the atomic law it stays open in the history for
/// ever, since each word that it might have got would say something of the stores: each unit that it touches keeps all that
/// it may have been since then. Answers there take longer with every store, and after some 65,536 stores, or far fewer if
/// several are open at once, there is no verdict: then the unit is forgotten, which ends it, and isn't judged any more.
class HistoryParts : public PartJudge {
public:
    explicit HistoryParts(History judge) : history(std::move(judge)) {}

    Fault load(uint64_t id, uint64_t address, unsigned size, uint64_t enables) override {
        open.emplace(id, Open{{Kind::Load, id, address, size, enables, ++calls}, sc_core::sc_time_stamp()});
        return refused(id, history.load_request(id, address, size, enables));
    }

    Fault store(uint64_t id, uint64_t address, unsigned size, const uint8_t *data, uint64_t enables) override {
        open.emplace(id, Open{{Kind::Store, id, address, size, enables, ++calls}, sc_core::sc_time_stamp()});
        if (stores.size() == KEPT_STORES) stores.pop_front();
        stores.emplace_back(id, sc_core::sc_time_stamp());
        return refused(id, history.store_request(id, address, data, size, enables));
    }

    Fault value(uint64_t id, const uint8_t *data) override {
        unsigned size = open.at(id).access.size;
        HistoryVerdict said = decided(id, [&] { return history.load_response(id, data, size); });
        if (said) return ended(id);
        std::string text = name(id) + (said.fault() == KROFT_FAIL_WRONG_BYTE ? wrong_data(id, data) : said.text());
        leave(id);
        return text;
    }

    Fault stored(uint64_t id) override {
        HistoryVerdict said = decided(id, [&] { return history.store_response(id); });
        return said ? ended(id) : Fault(name(id) + said.text());
    }

    Fault failed_load(uint64_t id) override {
        leave(id);
        return {};
    }

    Fault failed_store(uint64_t id) override {
        std::string text = name(id) + text_of(Reason::Failed);
        stored(id);
        return text;
    }

    /// The ids count the parts: the oldest comes first.
    std::vector<Access> unanswered() const override {
        std::vector<Access> found;
        for (const auto &each : open) found.push_back(each.second.access);
        return found;
    }

    std::optional<kroft_history_counts> coverage() const override { return history.coverage(); }

private:
    struct Open {
        Access access;
        sc_core::sc_time begun;
    };
    static constexpr size_t KEPT_STORES = 8192; // the history remembers fewer bytes of stores

    History history;
    std::map<uint64_t, Open> open;
    std::deque<std::pair<uint64_t, sc_core::sc_time>> stores; // when the last of them were begun, by their ids
    uint64_t calls = 0;

    Fault ended(uint64_t id) {
        calls++;
        open.erase(id);
        return {};
    }

    Fault refused(uint64_t id, const HistoryVerdict &said) {
        if (said) return {};
        std::string text = name(id) + said.text();
        open.erase(id);
        return text;
    }

    // The verdict of an answer. Where there is none, the unit in question is forgotten, which is a warning.
    template <class Tell> HistoryVerdict decided(uint64_t id, Tell tell) {
        HistoryVerdict said = tell();
        while (said.is_undecided()) {
            uint64_t unit = history.undecided().value();
            SC_REPORT_WARNING("kroft", (name(id) + said.text() + ": that at " + hex(unit) + " is forgotten").c_str());
            history.forget(unit);
            said = tell();
        }
        return said;
    }

    // Ends a load whose bytes count for nothing.
    void leave(uint64_t id) {
        const Access &access = open.at(id).access;
        Bytes bytes{};
        bool answers = history.law() != Law::Atomic;
        for (unsigned i = 0; answers && i < access.size; i++) {
            auto may = history.may_return(id, access.address + i);
            for (unsigned byte = 0; may && byte < 256; byte++)
                if (may->test(byte)) bytes[i] = static_cast<uint8_t>(byte);
        }
        if (answers) (void)history.load_response(id, bytes.data(), access.size);
        ended(id);
    }

    static std::string hex(uint64_t number) {
        char digits[20];
        snprintf(digits, sizeof digits, "0x%llx", static_cast<unsigned long long>(number));
        return digits;
    }

    static std::string hex_of(uint8_t byte) {
        char digits[4];
        snprintf(digits, sizeof digits, "%02x", byte);
        return digits;
    }

    std::string name(uint64_t id) const {
        const Open &it = open.at(id);
        return (it.access.kind == Kind::Load ? "load " : "store ") + std::to_string(id) + " of " + std::to_string(it.access.size) +
               " bytes at " + hex(it.access.address) + ", begun at " + it.begun.to_string() + ": ";
    }

    std::string name_of_store(uint64_t id) const {
        auto found = std::lower_bound(stores.begin(), stores.end(), id, [](const auto &each, uint64_t wanted) { return each.first < wanted; });
        std::string text = "store " + std::to_string(id);
        return found == stores.end() || found->first != id ? text : text + " (of " + found->second.to_string() + ")";
    }

    std::string wrong_data(uint64_t id, const uint8_t *data) {
        const Access &access = open.at(id).access;
        std::string text = "wrong data: got ";
        for (unsigned i = 0; i < access.size; i++) text += hex_of(data[i]);
        auto why = history.why(id, data, access.size);
        if (!why) return text;
        uint64_t address = access.address + why->place;
        if (history.law() == Law::Atomic) text += ", which stood at no moment in the unit with " + hex(address);
        text += ": byte " + std::to_string(why->place) + " is " + hex_of(data[why->place]);
        if (history.law() != Law::Atomic) text += may_be(id, address);
        if (why->reason == KROFT_REASON_NEVER_THERE) text += "; no store put it there";
        if (why->reason == KROFT_REASON_FIRST_OVERWRITTEN) text += "; memory had it first";
        if (why->reason == KROFT_REASON_STORE_OVERWRITTEN) text += "; " + name_of_store(why->stored) + " put it there";
        if (why->reason == KROFT_REASON_FIRST_OVERWRITTEN || why->reason == KROFT_REASON_STORE_OVERWRITTEN) text += ", and " + name_of_store(why->overwritten_by) + " overwrote it";
        return text;
    }

    // The bytes that a load may return at an address: at most four of them.
    std::string may_be(uint64_t id, uint64_t address) {
        auto may = history.may_return(id, address);
        std::string text = ", and may be";
        unsigned count = 0;
        for (unsigned byte = 0; may && byte < 256; byte++)
            if (may->test(byte) && count++ < 4) text += (count > 1 ? " or " : " ") + hex_of(static_cast<uint8_t>(byte));
        return count > 4 ? text + " or others" : text;
    }
};

/// What the monitors before one memory share: the judge, and the ids that it knows their transactions by.
/// It outlives its monitors.
class Watch {
public:
    /// By flat memory: a transaction takes effect at its request.
    explicit Watch(Range addresses = {}, Image first_bytes = {})
        : range(addresses), judge(std::make_unique<FlatParts>(addresses, std::move(first_bytes))) {}

    /// By a history without an event, and by its law: nobody has to know when a transaction takes effect. One of more
    /// than MAX_SIZE bytes is several operations.
    explicit Watch(History history, Range addresses = {}) : range(addresses), judge(std::make_unique<HistoryParts>(std::move(history))) {}

    /// What was wrong so far.
    uint64_t errors() const { return error_count; }

    /// The transactions, or their parts of at most MAX_SIZE bytes, that the judge was told of.
    uint64_t accesses() const { return next_id; }

    /// The parts of transactions that wait for their answers, the oldest first. The ids count the parts.
    std::vector<Access> unanswered() const { return judge->unanswered(); }

    /// What was counted of them; none, unless the history counts (History::cover) when it is given to the watch. By the atomic
    /// law a load that failed is never answered, so operations overtake it for ever.
    std::optional<kroft_history_counts> coverage() const { return judge->coverage(); }

private:
    template <unsigned> friend class Monitor;

    Range range;
    std::unique_ptr<PartJudge> judge;
    uint64_t next_id = 0;
    uint64_t error_count = 0;
};

/// A monitor between the two ends of a connection.
///
/// A transaction may have any length, byte enables and streaming width. A read that fails is owed nothing; a
/// write that fails inside of the memory's range is an error, and so is an answer without a request, and a
/// success outside of the range. Where the atomic law has no verdict, a unit is forgotten, which is a warning. There is no
/// direct memory access through it, so that nothing passes it by. A debug write counts as a store, and one outside of the
/// range is an error; a debug read isn't judged, for it may look below the caches.
template <unsigned BUSWIDTH = 32> class Monitor : public sc_core::sc_module {
public:
    tlm_utils::simple_target_socket<Monitor, BUSWIDTH> in{"in"};
    tlm_utils::simple_initiator_socket<Monitor, BUSWIDTH> out{"out"};

    Monitor(sc_core::sc_module_name module, Watch &shared) : sc_module(module), watch(shared) {
        in.register_b_transport(this, &Monitor::b_transport);
        in.register_nb_transport_fw(this, &Monitor::nb_transport_fw);
        in.register_get_direct_mem_ptr(this, &Monitor::get_direct_mem_ptr);
        in.register_transport_dbg(this, &Monitor::transport_dbg);
        out.register_nb_transport_bw(this, &Monitor::nb_transport_bw);
    }

    /// The transactions of nb_transport that passed this monitor and wait for their answers.
    size_t open() const { return pending.size(); }

private:
    using Payload = tlm::tlm_generic_payload;

    // At most MAX_SIZE bytes of a transaction, which the judge knows by an id.
    struct Part {
        uint64_t id;
        unsigned offset; // of its first byte in the data
    };

    // What a transaction was when its request passed: those behind the monitor may change its address.
    struct Request {
        bool is_read = false, is_write = false, outside = false;
        uint64_t address = 0;
        sc_core::sc_time begun;
        std::vector<Part> parts;
    };

    void b_transport(Payload &payload, sc_core::sc_time &delay) {
        Request request = begin(payload);
        out->b_transport(payload, delay);
        end(payload, request);
    }

    tlm::tlm_sync_enum nb_transport_fw(Payload &payload, tlm::tlm_phase &phase, sc_core::sc_time &delay) {
        if (phase != tlm::BEGIN_REQ) return out->nb_transport_fw(payload, phase, delay);
        if (pending.count(&payload)) fail("a transaction that begins before its answer came", payload.get_address());
        else pending.emplace(&payload, begin(payload));
        tlm::tlm_sync_enum status = out->nb_transport_fw(payload, phase, delay);
        bool answered = status == tlm::TLM_COMPLETED || (status == tlm::TLM_UPDATED && phase == tlm::BEGIN_RESP);
        if (answered) end_pending(payload);
        return status;
    }

    tlm::tlm_sync_enum nb_transport_bw(Payload &payload, tlm::tlm_phase &phase, sc_core::sc_time &delay) {
        if (phase == tlm::BEGIN_RESP) end_pending(payload);
        return in->nb_transport_bw(payload, phase, delay);
    }

    bool get_direct_mem_ptr(Payload &, tlm::tlm_dmi &) { return false; }

    unsigned transport_dbg(Payload &payload) {
        uint64_t address = payload.get_address();
        unsigned bytes = out->transport_dbg(payload);
        for (unsigned i = 0; payload.is_write() && i < bytes; i += MAX_SIZE) {
            unsigned size = std::min(MAX_SIZE, bytes - i);
            if (!watch.range.has(address + i, size)) {
                fail("a debug write outside of memory", address + i);
                continue;
            }
            uint64_t id = watch.next_id++;
            auto fault = watch.judge->store(id, address + i, size, payload.get_data_ptr() + i, ALL_BYTES);
            tell(fault);
            if (!fault) tell(watch.judge->stored(id));
        }
        return bytes;
    }

    // Tells the judge of a request.
    Request begin(const Payload &payload) {
        Request request;
        request.is_read = payload.is_read();
        request.is_write = payload.is_write();
        request.address = payload.get_address();
        request.begun = sc_core::sc_time_stamp();
        unsigned length = payload.get_data_length(), width = payload.get_streaming_width();
        if (width == 0 || width > length) width = length;
        if (length == 0 || !(request.is_read || request.is_write)) return request;
        request.outside = !watch.range.has(request.address, width);
        for (unsigned offset = 0, size; offset < length && !request.outside; offset += size) {
            size = std::min({MAX_SIZE, width - offset % width, length - offset});
            begin_part(payload, request, offset, size, request.address + offset % width);
        }
        return request;
    }

    void begin_part(const Payload &payload, Request &request, unsigned offset, unsigned size, uint64_t address) {
        uint64_t enables = enables_of(payload, offset, size);
        if (enables == 0) return;
        uint64_t id = watch.next_id++;
        const uint8_t *data = payload.get_data_ptr() + offset;
        auto fault = request.is_read ? watch.judge->load(id, address, size, enables) : watch.judge->store(id, address, size, data, enables);
        tell(fault);
        if (!fault) request.parts.push_back({id, offset});
    }

    static uint64_t enables_of(const Payload &payload, unsigned offset, unsigned size) {
        const uint8_t *enable = payload.get_byte_enable_ptr();
        unsigned length = payload.get_byte_enable_length();
        if (!enable || length == 0) return ALL_BYTES;
        uint64_t enables = 0;
        for (unsigned i = 0; i < size; i++)
            if (enable[(offset + i) % length] == TLM_BYTE_ENABLED) enables |= uint64_t{1} << i;
        return enables;
    }

    // Tells the judge of an answer.
    void end(const Payload &payload, const Request &request) {
        bool ok = payload.is_response_ok();
        if (request.outside && ok) fail("an answer from outside of memory", request.address);
        for (const Part &part : request.parts) {
            if (request.is_read) {
                tell(ok ? watch.judge->value(part.id, payload.get_data_ptr() + part.offset) : watch.judge->failed_load(part.id));
            } else {
                tell(ok ? watch.judge->stored(part.id) : watch.judge->failed_store(part.id));
            }
        }
    }

    void end_pending(const Payload &payload) {
        auto found = pending.find(&payload);
        if (found == pending.end()) {
            fail("an answer that nobody waits for", payload.get_address());
            return;
        }
        Request request = std::move(found->second);
        pending.erase(found);
        end(payload, request);
    }

    void tell(const PartJudge::Fault &fault) {
        if (fault) report(*fault);
    }

    static std::string at(uint64_t address) {
        char text[32];
        snprintf(text, sizeof text, ", at 0x%llx", static_cast<unsigned long long>(address));
        return text;
    }

    void fail(const std::string &what, uint64_t address) { report(what + at(address)); }

    void report(const std::string &text) {
        watch.error_count++;
        SC_REPORT_ERROR("kroft", (text + ", in " + name() + " at " + sc_core::sc_time_stamp().to_string()).c_str());
    }

    // A simulation that stops may have stopped before an answer: a warning.
    void end_of_simulation() override {
        if (pending.empty()) return;
        const Request *oldest = &pending.begin()->second;
        for (const auto &each : pending)
            if (each.second.begun < oldest->begun) oldest = &each.second;
        std::string text = std::to_string(pending.size()) + " transactions had no answer, the oldest of which began at " +
                           oldest->begun.to_string() + at(oldest->address) + ", in " + name();
        SC_REPORT_WARNING("kroft", text.c_str());
    }

    Watch &watch;
    std::unordered_map<const Payload *, Request> pending;
};

} // namespace kroft
