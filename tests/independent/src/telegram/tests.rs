use super::*;

fn refusal(telegram: &str) -> Option<u8> {
    read(telegram.as_bytes()).err().map(Refusal::number)
}

/// Reads the text as this message, and writes the message as this text.
fn same(telegram: &str, code: u16, message: Message) {
    assert_eq!(read(telegram.as_bytes()), Ok((code, message)), "{telegram}");
    let written = written(code, &message).unwrap();
    assert_eq!(String::from_utf8(written).unwrap(), telegram);
}

#[test]
fn telegrams_without_numbers() {
    let at = DateTime {
        year: 2024,
        month: 2,
        day: 29,
        hour: 12,
        minute: 34,
        second: 56,
    };
    let answer = Message::OperationAnswer {
        system: 0,
        state: 1,
    };
    let reply = Message::CaptureReply {
        channel: 7,
        result: 0,
    };
    same(
        "DV0030001255041120240229123456",
        12,
        Message::TimeNotice(at),
    );
    same("DV0018102355042101", 1023, answer);
    same("DV00160012550461", 12, Message::TimeRequest);
    same("DV00160000550471", 0, Message::OperationRequest);
    same("DV002000125506500070", 12, reply);
}

#[test]
fn telegrams_with_numbers() {
    let arrival = Message::BaseArrival {
        channel: 206,
        base: 29,
        call_type: 3,
        number: 12_345_678,
        order: 1,
    };
    let notice = Message::CallerNotice {
        channel: 7,
        base: 999,
        call_type: 1,
        direction: 2,
        number: 120_001,
        order: 0,
    };
    let request = Message::CaptureRequest {
        channel: 999,
        number: 0,
        order: 1,
    };
    let state = Message::CaptureState {
        channel: 7,
        number: 120_001,
        state: 1,
    };
    same("DV003200125504642060293123456781", 12, arrival);
    same("DV0033001255047700799912001200010", 12, notice);
    same("DV002900125506009998000000001", 12, request);
    same("DV002900125506510078001200011", 12, state);
}

#[test]
fn call_start_end() {
    let call = Message::CallStartEnd {
        channel: 187,
        base: 997,
        call_type: 2,
        media: 1,
        direction: 1,
        start: 0,
        reason: 9,
        source: 120_001,
        destination: 99_999_999,
    };
    let telegram = "DV00460012550473187997211009800120001899999999";
    same(telegram, 12, call);
}

#[test]
fn telegrams_of_a_ring() {
    let (channel, call_type) = (7, 3);
    let (source, destination) = (990_007, 120_001);
    let notice = Message::RingNotice {
        channel,
        call_type,
        source,
        destination,
    };
    let answer = Message::RingAnswer {
        channel,
        call_type,
        source,
        destination,
    };
    let reply = Message::AnswerReply {
        channel,
        accepted: 1,
    };
    let result = Message::CallResult {
        channel,
        call_type,
        result: 1,
        destination,
    };
    same("DV003800125504680073800990007800120001", 12, notice);
    same("DV003800125504190073800990007800120001", 12, answer);
    same("DV002000125504690071", 12, reply);
    same("DV0030001255048000731800120001", 12, result);
}

/// They have the ranges that each kind of field has elsewhere.
#[test]
fn edges_of_a_ring() {
    for identifier in ["550468", "550419"] {
        let body = |body: &str| refusal(&format!("DV00380012{identifier}{body}"));
        for good in [
            "0001800000000800000000",
            "0992899999999899999999",
            "1873800990007800120001",
            "2063800990007800120001",
            "9993800990007800120001",
        ] {
            assert_eq!(body(good), None, "{good}");
        }
        for bad in [
            "1003800990007800120001",
            "1863800990007800120001",
            "2073800990007800120001",
            "0070800990007800120001",
            "0074800990007800120001",
            "0073700990007800120001",
            "0073800990007900120001",
            "007380099000x800120001",
            "007380099000780012000x",
            "007x800990007800120001",
        ] {
            assert_eq!(body(bad), Some(10), "{bad}");
        }
    }
    assert_eq!(refusal("DV002000125504699990"), None);
    assert_eq!(refusal("DV002000125504690072"), Some(10));
    assert_eq!(refusal("DV0030001255048099910800000000"), None);
    assert_eq!(refusal("DV0030001255048000700800120001"), Some(10));
    assert_eq!(refusal("DV0030001255048000740800120001"), Some(10));
    assert_eq!(refusal("DV0030001255048000732800120001"), Some(10));
    assert_eq!(refusal("DV0030001255048000731700120001"), Some(10));
    assert_eq!(refusal("DV003100125504800073180012000100"), Some(8));
    assert_eq!(refusal("DV00310012550480007318001200010"), Some(10));
    assert_eq!(refusal("DV003700125504190073800990007800120"), Some(8));
    assert_eq!(refusal("DV00370012550419007380099000780012000"), Some(10));
}

#[test]
fn named_edges() {
    assert_eq!(refusal("DV0030001255041120240229120000"), None);
    assert_eq!(refusal("DV0030001255041120230229120000"), Some(10));
    assert_eq!(refusal("DV00161023550461"), None);
    assert_eq!(refusal("DV00161024550461"), Some(8));
    assert_eq!(refusal("DV002000125506502060"), None);
    assert_eq!(refusal("DV002000125506502070"), Some(10));
    // 999 is only refused by the rules about a desk.
    assert_eq!(refusal("DV002900125506009998001200011"), None);
    assert_eq!(refusal("DV0029001255060000780012000x1"), Some(10));
}

#[test]
fn header_refusals() {
    for telegram in [
        "",
        "DV0015001255046",
        "DW00160012550461",
        "dv00160012550461",
        "DV00170012550461",
        "DV001600125504610",
        "DV+0160012550461",
        "DV00169999550461",
        "DV0016-001550461",
    ] {
        assert_eq!(refusal(telegram), Some(8), "{telegram}");
    }
    let mut long = b"DV00160012550461".to_vec();
    long.resize(10_016, b'0');
    assert_eq!(read(&long), Err(Refusal::Header));
}

#[test]
fn identifier_refusals() {
    for telegram in ["DV00160012550460", "DV0016001255046A", "DV00160012+50461"] {
        assert_eq!(refusal(telegram), Some(9), "{telegram}");
    }
}

#[test]
fn body_refusals() {
    for telegram in [
        "DV001700125504610",
        "DV001700125504210",
        "DV00190012550421010",
        "DV0018001255042102",
        "DV001800125504210 ",
        "DV002900125506000077001200011",
        "DV002900125506000079001200011",
        "DV002900125506000078001200012",
        "DV003200125504640070301123456781",
        "DV003200125504640079961123456781",
        "DV003200125504640070120123456781",
        "DV003200125504640070124123456781",
        "DV0033001255047700799910001200010",
        "DV0033001255047700799913001200010",
        "DV003300125504770079991100120 010",
    ] {
        assert_eq!(refusal(telegram), Some(10), "{telegram}");
    }
}

#[test]
fn refusals_come_in_order() {
    assert_eq!(refusal("DV00171024550460x"), Some(8));
    assert_eq!(refusal("DV00170012550460x"), Some(9));
    assert_eq!(refusal("DV00170012550461x"), Some(10));
}

#[test]
fn channels_and_bases_and_reasons() {
    let good = |prefix: &str, width: usize, count: u32, suffix: &str| -> Vec<u32> {
        let telegram = |value: u32| format!("{prefix}{value:0width$}{suffix}");
        (0..count)
            .filter(|&value| refusal(&telegram(value)).is_none())
            .collect()
    };
    let channels: Vec<u32> = (0..100).chain(187..207).chain([999]).collect();
    assert_eq!(good("DV00200012550650", 3, 1000, "0"), channels);
    let bases: Vec<u32> = (0..30).chain([997, 998, 999]).collect();
    assert_eq!(good("DV00320012550464007", 3, 1000, "1123456781"), bases);
    let reasons = good("DV004600125504730079991011", 2, 100, "800120001800000000");
    assert_eq!(reasons, [0, 1, 2, 3, 5, 9]);
}

#[test]
fn dates() {
    let date = |text: &str| refusal(&format!("DV00300012550411{text}"));
    for good in [
        "20000101000000",
        "20991231235959",
        "20000229000000",
        "20960229000000",
        "20240430000000",
    ] {
        assert_eq!(date(good), None, "{good}");
    }
    for bad in [
        "19991231235959",
        "21000101000000",
        "20990229000000",
        "20240230000000",
        "20240431000000",
        "20240001000000",
        "20241301000000",
        "20240100000000",
        "20240132000000",
        "20240101240000",
        "20240101006000",
        "20240101000060",
    ] {
        assert_eq!(date(bad), Some(10), "{bad}");
    }
}

#[test]
fn leap_years_of_the_century() {
    let leap = |year: &u32| refusal(&format!("DV00300012550411{year}0229000000")).is_none();
    let years: Vec<u32> = (1900..2200).filter(leap).collect();
    let right: Vec<u32> = (2000..2100).step_by(4).collect();
    assert_eq!(years, right);
}

#[test]
fn writer_refuses_values_out_of_range() {
    assert_eq!(written(1024, &Message::TimeRequest), Err(Refusal::Body));
    assert_eq!(written(u16::MAX, &Message::TimeRequest), Err(Refusal::Body));
    let reply = |channel, result| written(12, &Message::CaptureReply { channel, result });
    assert_eq!(reply(207, 0), Err(Refusal::Body));
    assert_eq!(reply(1000, 0), Err(Refusal::Body));
    assert_eq!(reply(7, 2), Err(Refusal::Body));
    let request = |number| {
        let (channel, order) = (7, 1);
        let message = Message::CaptureRequest {
            channel,
            number,
            order,
        };
        written(12, &message)
    };
    assert!(request(99_999_999).is_ok());
    assert_eq!(request(100_000_000), Err(Refusal::Body));
    let result = |call_type, result, destination| {
        let message = Message::CallResult {
            channel: 7,
            call_type,
            result,
            destination,
        };
        written(12, &message)
    };
    assert!(result(3, 1, 99_999_999).is_ok());
    assert_eq!(result(4, 1, 99_999_999), Err(Refusal::Body));
    assert_eq!(result(3, 2, 99_999_999), Err(Refusal::Body));
    assert_eq!(result(3, 1, 100_000_000), Err(Refusal::Body));
}

#[test]
fn writer_refuses_small_buffers() {
    let message = Message::CaptureReply {
        channel: 7,
        result: 0,
    };
    let telegram = b"DV002000125506500070";
    for size in 0..20 {
        let mut buffer = vec![b'x'; size];
        assert_eq!(write(12, &message, &mut buffer), Err(Refusal::Space));
        assert!(buffer.iter().all(|&byte| byte == b'x'));
        // Out of range comes first.
        assert_eq!(write(1024, &message, &mut buffer), Err(Refusal::Body));
    }
    let mut buffer = [b'x'; 22];
    assert_eq!(write(12, &message, &mut buffer), Ok(20));
    assert_eq!(buffer[..20], telegram[..]);
    assert_eq!(buffer[20..], *b"xx");
}

#[test]
fn lengths_are_those_written() {
    for telegram in crate::samples::SAMPLES {
        let (_, message) = read(telegram.as_bytes()).unwrap();
        assert_eq!(message.length(), telegram.len());
    }
}
