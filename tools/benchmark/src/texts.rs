//! What is measured: realistic lists, and families of texts that ask much of a reader, at any size.

fn filled(head: &str, size: usize, mut line: impl FnMut(usize) -> String) -> Vec<u8> {
    let mut text = String::from(head);
    let mut k = 0;
    loop {
        let more = line(k);
        if text.len() + more.len() > size {
            return text.into_bytes();
        }
        text += &more;
        k += 1;
    }
}

/// A unit again and again up to a size, and behind it other bytes.
fn repeated(unit: &str, size: usize, tail: &str) -> Vec<u8> {
    let mut text = filled(START, size - tail.len(), |_| unit.into());
    text.extend_from_slice(tail.as_bytes());
    text
}

const START: &str = "#EXTM3U\n";
const HEAD: &str = "#EXTM3U\n#EXT-X-VERSION:7\n#EXT-X-TARGETDURATION:10\n#EXT-X-MEDIA-SEQUENCE:338559\n#EXT-X-PLAYLIST-TYPE:VOD\n";
const FFMPEG: &str = "#EXTM3U\n#EXT-X-VERSION:3\n#EXT-X-TARGETDURATION:10\n#EXT-X-MEDIA-SEQUENCE:0\n";
const FMP4: &str = "#EXTM3U\n#EXT-X-TARGETDURATION:6\n#EXT-X-VERSION:7\n#EXT-X-MEDIA-SEQUENCE:1\n#EXT-X-PLAYLIST-TYPE:VOD\n\
                    #EXT-X-INDEPENDENT-SEGMENTS\n#EXT-X-MAP:URI=\"main.mp4\",BYTERANGE=\"719@0\"\n";

const LARGE: usize = 64 << 10;

/// A list as encoders write it: a map at its start, a break and a tag now and then.
fn realistic(size: usize) -> Vec<u8> {
    filled(HEAD, size, |k| {
        let before = match k {
            0 => "#EXT-X-MAP:URI=\"init.mp4\"\n",
            _ if k % 97 == 0 => "#EXT-X-DISCONTINUITY\n",
            _ if k % 31 == 0 => "#EXT-X-BITRATE:1200\n",
            _ => "",
        };
        format!("{before}#EXTINF:{}.{:03},\nhttps://media.example.com/show/segment-{k:05}.ts\n", 3 + k % 7, k * 37 % 1000)
    })
}

/// Lists as encoders and packagers write them.
pub fn realistic_lists() -> Vec<(&'static str, Vec<u8>)> {
    let crlf = String::from_utf8_lossy(&realistic(LARGE - 2200)).replace('\n', "\r\n").into_bytes();
    vec![
        ("300", realistic(300)),
        ("1k", realistic(1 << 10)),
        ("10k", realistic(10 << 10)),
        ("64k", realistic(LARGE)),
        ("crlf", crlf),
        ("ffmpeg", filled(FFMPEG, LARGE, |k| format!("#EXTINF:{}.{:06},\nout{k:03}.ts\n", 3 + k % 7, k * 7919 % 1_000_000))),
        ("fmp4", filled(FMP4, LARGE, |k| format!("#EXTINF:6.00600,\n#EXT-X-BYTERANGE:{}@{}\nmain.mp4\n", 1_500_000 + k * 7919 % 90_000, k * 1_545_000 + 719))),
        ("ranges", filled(HEAD, LARGE, |k| format!("#EXTINF:9.009,clip {k}\n#EXT-X-BYTERANGE:75232@{}\nreel.ts\n", k * 75232))),
        ("japanese", filled(HEAD, LARGE, |k| format!("#EXTINF:{}.5,第{k}話 からくり人形\n映像/人形-{k:05}.ts\n", 3 + k % 7))),
        ("cyrillic", filled(HEAD, LARGE, |k| format!("#EXTINF:{}.5,Часть {k}, заводная кукла\nкино/кукла-{k:05}.ts\n", 3 + k % 7))),
    ]
}

pub type Family = (&'static str, fn(usize) -> Vec<u8>);

/// Texts that ask much, each a family of any size.
pub const FAMILIES: &[Family] = &[
    ("tags", |size| filled(START, size - 2, |k| format!("#EXT-X-CUE-{k}:some=\"value\"\n")).into_iter().chain(*b"x\n").collect()),
    ("maps", |size| repeated("#EXT-X-MAP:a=b,c\n", size, "")),
    ("map-no-equals", |size| repeated("#EXT-X-MAP:a\n", size, "")),
    ("map-open-quote", |size| repeated("#EXT-X-MAP:a=\"\n", size, "")),
    ("map-uri", |size| repeated("#EXT-X-MAP:URI=a,b\n", size, "")),
    ("map-quote-and-bare", |size| repeated("#EXT-X-MAP:a=\"b\n#EXT-X-MAP:c=d,e\n", size, "")),
    ("map-mix", |size| repeated("#EXT-X-MAP:a=\",b=\"c\nd=e,\n#EXT-X-MAP: f\n", size, "")),
    ("map-blanks", |size| repeated("#EXT-X-MAP:   \t x\n", size, "")),
    ("map-pairs-behind", |size| repeated("#EXT-X-MAP:a\n", size, &"=b,".repeat(size / 12))),
    ("map-value-behind", |size| repeated("#EXT-X-MAP:a\n", size, &format!("=\"{}", "z".repeat(size / 4)))),
    ("map-quotes-behind", |size| repeated("#EXT-X-MAP:a=\"\n", size, &"\"\n=".repeat(size / 12))),
    ("tabs", |size| repeated("\t\n", size, "")),
    ("blanks", |size| repeated(" ", size, "")),
    ("crs", |size| repeated("\r", size, "")),
    ("version", |size| [START.as_bytes(), b"#EXT-X-VERSION:", &vec![b'9'; size - 24], b"\n"].concat()),
    ("two-bytes", |size| repeated("ж", size, "")),
    ("three-bytes", |size| repeated("映", size, "")),
    ("four-bytes", |size| repeated("\u{1f3a0}", size, "")),
    ("short", |size| repeated("a\n", size, "")),
    ("comments", |size| repeated("# a comment of some length, as editors leave them\n", size, "")),
    ("line", |size| repeated("a", size, "")),
];
