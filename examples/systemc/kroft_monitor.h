// A TLM-2.0 pass-through that judges each word that goes by, loosely timed (b_transport).
//
// Bind `in` to an initiator and `out` to the memory side. Addresses are bytes, from `base` on; a
// transaction may have any length, byte enables and streaming width. A read of n bytes is a load of each of its words,
// accepted as the transaction passes on, and a take of each value as it comes back; a write is a store of
// each of its words in the lanes that it enables. With a streaming width each pass over the same addresses is
// loads or stores of its own. What flat memory can't explain is an error of the report
// handler under the id "kroft", with the word, what it was owed, what came, and when. It offers no direct
// memory access and no debug transport, so that nothing passes it by.
#pragma once

#include "kroft.h"

#include <cstdio>
#include <string>
#include <systemc>
#include <tlm>
#include <tlm_utils/simple_initiator_socket.h>
#include <tlm_utils/simple_target_socket.h>
#include <vector>

class kroft_monitor : public sc_core::sc_module {
public:
    tlm_utils::simple_target_socket<kroft_monitor> in{"in"};
    tlm_utils::simple_initiator_socket<kroft_monitor> out{"out"};

    // Over so many words, all zero, from the byte address `base` on.
    kroft_monitor(sc_core::sc_module_name name, uint64_t base, size_t words)
        : sc_module(name), base(base), words(words), due(KROFT_TAGS) {
        in.register_b_transport(this, &kroft_monitor::pass);
    }

    uint64_t steps = 0;
    uint64_t errors = 0;

    // How many words of reads were asked for and never came back. A bench asks at its end.
    uint32_t unanswered() const {
        uint16_t tag;
        return kroft_flat_unanswered(due.data(), 0, &tag);
    }

private:
    static constexpr uint64_t WORD = 4;
    uint64_t base;
    std::vector<kroft_word> words;
    std::vector<kroft_due> due;
    uint16_t next_tag = 0;

    // The bytes of one pass of a transaction over its addresses, as words and lanes.
    struct Span {
        const tlm::tlm_generic_payload &payload;
        uint64_t begin;  // the first byte, from the base on
        unsigned offset; // the same byte in the data
        unsigned length;
        uint64_t first() const { return begin / WORD; }
        uint64_t last() const { return (begin + length - 1) / WORD; }

        // Which byte of the data is byte `lane` of a word: none outside the transaction, and where it isn't enabled.
        bool has(uint64_t word, unsigned lane, uint64_t &byte) const {
            uint64_t at = word * WORD + lane;
            byte = offset + (at - begin);
            if (at < begin || at - begin >= length) return false;
            const uint8_t *enable = payload.get_byte_enable_ptr();
            return !enable || enable[byte % payload.get_byte_enable_length()] == TLM_BYTE_ENABLED;
        }
    };

    void pass(tlm::tlm_generic_payload &payload, sc_core::sc_time &delay) {
        std::vector<Span> spans = spans_of(payload);
        bool any = !spans.empty() && (payload.is_read() || payload.is_write());
        bool inside = any && payload.get_address() >= base && spans[0].last() < words.size();
        uint16_t tag = next_tag;
        for (const Span &span : spans)
            if (inside && payload.is_read()) loads(span);
        out->b_transport(payload, delay);
        bool ok = payload.is_response_ok();
        for (const Span &span : spans) {
            if (inside && payload.is_read()) values(span, tag, ok);
            if (inside && payload.is_write() && ok) stores(span);
        }
        if (any && !inside && payload.is_response_ok()) fail("an answer from outside memory");
    }

    // The first pass is the widest.
    std::vector<Span> spans_of(const tlm::tlm_generic_payload &payload) const {
        std::vector<Span> spans;
        unsigned length = payload.get_data_length(), width = payload.get_streaming_width();
        if (width == 0 || width > length) width = length;
        for (unsigned offset = 0; offset < length; offset += width)
            spans.push_back({payload, payload.get_address() - base, offset, width < length - offset ? width : length - offset});
        return spans;
    }

    void loads(const Span &span) {
        for (uint64_t word = span.first(); word <= span.last(); word++) {
            kroft_event event{};
            event.kind = KROFT_LOAD;
            event.tag = next_tag++;
            event.at = uint32_t(word);
            judge(event, {});
        }
    }

    // Bytes that the read leaves out are as owed; so is all of a read that failed.
    void values(const Span &span, uint16_t &tag, bool ok) {
        for (uint64_t word = span.first(); word <= span.last(); word++, tag++) {
            kroft_event event{};
            event.kind = KROFT_TAKE;
            event.at = uint32_t(word);
            kroft_answer answer{};
            answer.kind = KROFT_VALUE;
            answer.tag = tag;
            answer.word = due[tag].word;
            uint64_t byte;
            for (unsigned lane = 0; ok && lane < WORD; lane++)
                if (span.has(word, lane, byte)) answer.word.b[lane] = span.payload.get_data_ptr()[byte];
            judge(event, answer);
        }
    }

    void stores(const Span &span) {
        for (uint64_t word = span.first(); word <= span.last(); word++) {
            kroft_event event{};
            event.kind = KROFT_STORE;
            event.at = uint32_t(word);
            uint64_t byte;
            for (unsigned lane = 0; lane < WORD; lane++)
                if (span.has(word, lane, byte)) {
                    event.lanes |= uint8_t(1u << lane);
                    event.word.b[lane] = span.payload.get_data_ptr()[byte];
                }
            if (event.lanes) judge(event, {});
        }
    }

    void judge(const kroft_event &event, const kroft_answer &answer) {
        steps++;
        kroft_word owed{};
        uint32_t result = kroft_flat_judge(words.data(), words.size(), due.data(), &event, &answer, &owed);
        if (result == KROFT_OK) return;
        std::string text = "word " + std::to_string(event.at);
        if (result == KROFT_FAIL_WRONG_WORD) text += ": owed " + hex(owed) + ", got " + hex(answer.word);
        else text += std::string(": ") + kroft_text(result);
        fail(text);
    }

    void fail(const std::string &text) {
        errors++;
        SC_REPORT_ERROR("kroft", (text + ", at " + sc_core::sc_time_stamp().to_string()).c_str());
    }

    static std::string hex(const kroft_word &word) {
        char text[9];
        snprintf(text, sizeof text, "%02x%02x%02x%02x", word.b[0], word.b[1], word.b[2], word.b[3]);
        return text;
    }
};
