//! The texts of `crates/bench_reader`, byte for byte: by the same seeded generator, in the same order.

#[derive(Clone, Copy)]
pub enum Kind {
    Records,
    Indented,
    Integers,
    Catalogue,
    LongTexts,
    Messages,
    Escapes,
    Nested,
}

impl Kind {
    pub fn named(name: &str) -> Option<Kind> {
        Some(match name {
            "records" => Kind::Records,
            "indented" => Kind::Indented,
            "integers" => Kind::Integers,
            "catalogue" => Kind::Catalogue,
            "long" => Kind::LongTexts,
            "messages" => Kind::Messages,
            "escapes" => Kind::Escapes,
            "nested" => Kind::Nested,
            _ => return None,
        })
    }
}

const WORDS: [&str; 16] = [
    "paper", "window", "harbour", "signal", "green", "of", "the", "morning", "seven", "bridge",
    "at", "quiet", "river", "and", "stone", "lamp",
];
const ACCENTS: [&str; 4] = ["é", "日本語", "über", "東京"];
const ESCAPES: [&str; 4] = ["\\n", "https:\\/\\/t.co\\/", "\\\"", "\\u3042"];
const MARKS: [&str; 10] = [
    "\\n",
    "\\t",
    "\\\"",
    "\\\\",
    "\\/",
    "\\u00e9",
    "\\u3042",
    "\\u20AC",
    "\\ud83d\\ude00",
    "\\uD834\\uDD1E",
];

/// A text that grows, and the numbers that it is drawn by.
struct Writer {
    out: String,
    state: u64,
}

impl Writer {
    fn next(&mut self) -> u64 {
        self.state ^= self.state << 13;
        self.state ^= self.state >> 7;
        self.state ^= self.state << 17;
        self.state
    }

    fn below(&mut self, limit: u64) -> u64 {
        self.next() % limit
    }

    fn pick(&mut self, from: &[&'static str]) -> &'static str {
        let place = self.below(from.len() as u64);
        from[place as usize]
    }

    fn put(&mut self, text: &str) {
        self.out.push_str(text);
    }

    fn put_number(&mut self, number: u64) {
        self.put(&number.to_string());
    }

    fn put_words(&mut self, count: u64) {
        for i in 0..count {
            if i > 0 {
                self.put(" ");
            }
            let word = self.pick(&WORDS);
            self.put(word);
        }
    }

    fn put_record(&mut self) {
        let id = self.below(1_000_000);
        let name = [self.pick(&WORDS), self.pick(&WORDS)];
        let balance = self.below(100_000) | 1;
        let city = self.pick(&WORDS);
        let tags = [self.pick(&WORDS), self.pick(&WORDS)];
        let record = format!(
            r#"{{"id":{id},"name":"{} {}","active":true,"balance":-{balance},"city":"{city}","tags":["{}","{}"],"next":null}}"#,
            name[0], name[1], tags[0], tags[1]
        );
        self.put(&record);
    }

    fn put_line(&mut self, key: &str) {
        self.put(&format!("\n    \"{key}\": "));
    }

    fn put_indented(&mut self) {
        self.put("\n  {");
        self.put_line("id");
        let id = self.below(1_000_000);
        self.put_number(id);
        self.put(",");
        self.put_line("name");
        self.put("\"");
        self.put_words(2);
        self.put("\",");
        self.put_line("active");
        self.put("true,");
        self.put_line("balance");
        let balance = self.below(100_000) | 1;
        self.put(&format!("-{balance},"));
        self.put_line("tags");
        self.put("[\n      \"");
        self.put_words(1);
        self.put("\",\n      \"");
        self.put_words(1);
        self.put("\"\n    ],");
        self.put_line("next");
        self.put("null\n  }");
    }

    fn put_integer(&mut self) {
        let digits = self.below(12) as u32;
        let limit = 10_u64.pow(digits) * 10;
        if self.below(4) == 0 {
            self.put("-");
        }
        let number = self.below(limit) | 1;
        self.put_number(number);
    }

    /// A number of that many digits, at most 20; one of 20 is below 2^64, one of 19 below 2^63.
    fn put_digits(&mut self, digits: u32) {
        let number = if digits == 20 {
            10_000_000_000_000_000_000 + self.below(8_000_000_000_000_000_000)
        } else {
            let least = 10_u64.pow(digits.max(1) - 1);
            self.below(least.saturating_mul(8)).saturating_add(least)
        };
        self.put_number(number);
    }

    fn put_entry(&mut self) {
        self.put("{\"code\":\"");
        self.put_words(1);
        self.put("\"");
        for i in 0..self.below(41) + 29 {
            let word = self.pick(&WORDS);
            self.put(&format!(",\"{word}{i}\":"));
            let digits = self.below(20) as u32 + 1;
            if digits < 20 && self.below(4) == 0 {
                self.put("-");
            }
            self.put_digits(digits);
        }
        self.put("}");
    }

    fn put_long(&mut self) {
        self.put("\"");
        self.put_words(64);
        self.put("\"");
    }

    fn put_sentence(&mut self) {
        for _ in 0..self.below(4) + 1 {
            let count = self.below(6) + 1;
            self.put_words(count);
            self.put(" ");
            let from = if self.below(2) == 0 {
                &ACCENTS
            } else {
                &ESCAPES
            };
            let word = self.pick(from);
            self.put(word);
        }
    }

    /// One message with its writer, indented, with escapes and letters past ASCII.
    fn put_message(&mut self) {
        self.put(
            "\n    {\n      \"created_at\": \"Sun Aug 31 00:29:15 +0000 2014\",\n      \"id\": ",
        );
        let id = self.next() >> 5;
        self.put_number(id);
        self.put(",\n      \"text\": \"");
        self.put_sentence();
        self.put("\",\n      \"truncated\": false,\n      \"in_reply_to_status_id\": null,\n      \"user\": {\n        \"id\": ");
        let user = self.below(3_000_000_000);
        self.put_number(user);
        self.put(",\n        \"name\": \"");
        self.put_words(2);
        self.put("\",\n        \"description\": \"");
        self.put_sentence();
        self.put("\",\n        \"followers_count\": ");
        let followers = self.below(5000);
        self.put_number(followers);
        self.put(",\n        \"protected\": false\n      },\n      \"retweet_count\": ");
        let count = self.below(100);
        self.put_number(count);
        self.put(",\n      \"hashtags\": [],\n      \"lang\": \"ja\"\n    }");
    }

    fn put_escaped(&mut self) {
        self.put("\"");
        for _ in 0..self.below(24) + 1 {
            self.put_words(3);
            let mark = self.pick(&MARKS);
            self.put(mark);
        }
        self.put("\"");
    }

    fn put_nested(&mut self) {
        let depth = self.below(100) as usize + 1;
        let mut ends = Vec::new();
        for _ in 0..depth {
            if self.below(2) == 0 {
                let number = self.below(100);
                self.put(&format!("[{number},"));
                ends.push("]");
            } else {
                let word = self.pick(&WORDS);
                self.put(&format!("{{\"{word}\":"));
                ends.push("}");
            }
        }
        self.put("null");
        for end in ends.iter().rev() {
            self.put(end);
        }
    }

    fn put_one(&mut self, kind: Kind) {
        match kind {
            Kind::Records => self.put_record(),
            Kind::Indented => self.put_indented(),
            Kind::Integers => self.put_integer(),
            Kind::Catalogue => self.put_entry(),
            Kind::LongTexts => self.put_long(),
            Kind::Messages => self.put_message(),
            Kind::Escapes => self.put_escaped(),
            Kind::Nested => self.put_nested(),
        }
    }
}

/// A text of about that many bytes, an array.
pub fn text_of(kind: Kind, size: usize) -> Vec<u8> {
    let mut writer = Writer {
        out: String::from("["),
        state: 0x9e37_79b9_7f4a_7c15,
    };
    let mut is_first = true;
    while writer.out.len() < size {
        if !is_first {
            writer.put(",");
        }
        is_first = false;
        writer.put_one(kind);
    }
    writer.put("]");
    writer.out.into_bytes()
}
