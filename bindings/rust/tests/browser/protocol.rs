//! A browser without a window, spoken to over its debugging pipe: messages in JSON, each ended by a zero byte.

use std::io::{BufRead, BufReader, Write};
use std::path::{Path, PathBuf};
use std::process::{Child, ChildStdin, Command, Stdio};
use std::sync::mpsc::{self, Receiver};
use std::thread;
use std::time::{Duration, Instant};

/// Names of the program, where it is not given by this variable.
const PROGRAM_VARIABLE: &str = "REDSTARTGILT_BROWSER";
pub const PROGRAMS: [&str; 4] = ["chromium", "chromium-browser", "google-chrome", "google-chrome-stable"];

const PATIENCE: Duration = Duration::from_secs(60);

/// The browser that is installed, if one is: a program that tells its version.
pub fn installed() -> Option<PathBuf> {
    if let Some(program) = std::env::var_os(PROGRAM_VARIABLE) {
        return Some(program.into());
    }
    let folders = std::env::var_os("PATH")?;
    std::env::split_paths(&folders)
        .flat_map(|folder| PROGRAMS.map(|name| folder.join(name)))
        .find(|program| program.is_file() && tells_version(program))
}

fn tells_version(program: &Path) -> bool {
    Command::new(program)
        .arg("--version")
        .stdin(Stdio::null())
        .output()
        .is_ok_and(|output| output.status.success())
}

/// A text as JSON writes it.
pub fn quoted(text: &str) -> String {
    let mut quoted = String::from("\"");
    for letter in text.chars() {
        match letter {
            '"' => quoted.push_str("\\\""),
            '\\' => quoted.push_str("\\\\"),
            letter if letter.is_control() => quoted.push_str(&format!("\\u{:04x}", letter as u32)),
            letter => quoted.push(letter),
        }
    }
    quoted.push('"');
    quoted
}

/// The first text of this name in a message.
fn text_field(message: &str, name: &str) -> Option<String> {
    let (_, rest) = message.split_once(&format!("\"{name}\":\""))?;
    let mut letters = rest.chars();
    let mut text = String::new();
    loop {
        match letters.next()? {
            '"' => return Some(text),
            '\\' => match letters.next()? {
                'n' => text.push('\n'),
                't' => text.push('\t'),
                'r' => text.push('\r'),
                'u' => {
                    let digits = letters.by_ref().take(4).collect::<String>();
                    let number = u32::from_str_radix(&digits, 16).ok()?;
                    text.push(char::from_u32(number).unwrap_or('\u{fffd}'));
                }
                other => text.push(other),
            },
            letter => text.push(letter),
        }
    }
}

pub struct Browser {
    child: Child,
    messages: ChildStdin,
    replies: Receiver<String>,
    last: usize,
}

/// A page of the browser.
pub struct Page<'a> {
    browser: &'a mut Browser,
    session: String,
}

impl Drop for Browser {
    fn drop(&mut self) {
        let _ = self.child.kill();
        let _ = self.child.wait();
    }
}

impl Browser {
    /// Starts the program; `folder` is for its own files.
    pub fn start(program: &Path, folder: &Path) -> Self {
        // The pipe is descriptors 3 and 4; the shell makes them of its own input and output, and becomes the browser.
        let mut child = Command::new("sh")
            .args(["-c", "exec \"$@\" 3<&0 4>&1 </dev/null >/dev/null", "sh"])
            .arg(program)
            .args([
                "--headless",
                "--remote-debugging-pipe",
                "--no-sandbox",
                "--disable-gpu",
                "--disable-dev-shm-usage",
                "--no-first-run",
                "--hide-scrollbars",
            ])
            .arg(format!("--user-data-dir={}", folder.display()))
            .stdin(Stdio::piped())
            .stdout(Stdio::piped())
            .stderr(Stdio::null())
            .spawn()
            .unwrap();
        let messages = child.stdin.take().unwrap();
        let output = BufReader::new(child.stdout.take().unwrap());
        let (sender, replies) = mpsc::channel();
        thread::spawn(move || {
            for message in output.split(0).map_while(Result::ok) {
                if sender.send(String::from_utf8_lossy(&message).into_owned()).is_err() {
                    return;
                }
            }
        });
        Self {
            child,
            messages,
            replies,
            last: 0,
        }
    }

    /// The reply to a call, also where it is an error; `session` is a page, or empty for the browser itself.
    fn reply(&mut self, session: &str, method: &str, parameters: &str) -> String {
        self.last += 1;
        let id = self.last;
        let session = match session {
            "" => String::new(),
            session => format!(",\"sessionId\":{}", quoted(session)),
        };
        write!(
            self.messages,
            "{{\"id\":{id},\"method\":\"{method}\",\"params\":{parameters}{session}}}\0"
        )
        .and_then(|()| self.messages.flush())
        .unwrap_or_else(|error| panic!("{method}: the browser does not listen: {error}"));
        let until = Instant::now() + PATIENCE;
        loop {
            let left = until.saturating_duration_since(Instant::now());
            let reply = self
                .replies
                .recv_timeout(left)
                .unwrap_or_else(|error| panic!("{method}: no reply of the browser: {error}"));
            if reply.starts_with(&format!("{{\"id\":{id},")) {
                return reply;
            }
        }
    }

    fn call(&mut self, session: &str, method: &str, parameters: &str) -> String {
        let reply = self.reply(session, method, parameters);
        assert!(!reply.contains("\"error\":{"), "{method} {parameters}: {reply}");
        reply
    }

    pub fn page(&mut self) -> Page<'_> {
        let target = self.call("", "Target.createTarget", "{\"url\":\"about:blank\"}");
        let target = text_field(&target, "targetId").unwrap();
        let parameters = format!("{{\"targetId\":{},\"flatten\":true}}", quoted(&target));
        let session = self.call("", "Target.attachToTarget", &parameters);
        let session = text_field(&session, "sessionId").unwrap();
        Page { browser: self, session }
    }
}

impl Page<'_> {
    pub fn call(&mut self, method: &str, parameters: &str) -> String {
        self.browser.call(&self.session, method, parameters)
    }

    /// The value of an expression of the page's language, as a text.
    pub fn value(&mut self, expression: &str) -> String {
        let whole = quoted(&format!("Promise.resolve({expression}).then(String)"));
        let parameters = format!("{{\"expression\":{whole},\"awaitPromise\":true}}");
        let reply = self.call("Runtime.evaluate", &parameters);
        assert!(!reply.contains("\"exceptionDetails\""), "{expression}: {reply}");
        text_field(&reply, "value").unwrap_or_else(|| panic!("{expression}: {reply}"))
    }

    pub fn number(&mut self, expression: &str) -> f64 {
        self.value(expression).parse().unwrap()
    }

    pub fn text_of(&mut self, id: &str) -> String {
        self.value(&format!("document.getElementById('{id}').textContent"))
    }

    /// Opens a file and waits until it is loaded.
    pub fn open(&mut self, file: &Path) {
        let address = format!("file://{}", file.display());
        self.call("Page.navigate", &format!("{{\"url\":{}}}", quoted(&address)));
        let loaded = quoted(&format!(
            "String(document.readyState === 'complete' && location.href === {})",
            quoted(&address)
        ));
        let until = Instant::now() + PATIENCE;
        // While one page goes and the other comes there may be none to ask, which is an error.
        while !self
            .browser
            .reply(
                &self.session,
                "Runtime.evaluate",
                &format!("{{\"expression\":{loaded}}}"),
            )
            .contains("\"value\":\"true\"")
        {
            assert!(Instant::now() < until, "{address} is not loaded");
            thread::sleep(Duration::from_millis(20));
        }
    }

    /// Presses a key; the number is that of the key, `control` whether Control is held.
    pub fn press(&mut self, key: &str, number: u32, control: bool) {
        let text = if key == "Enter" { ",\"text\":\"\\r\"" } else { "" };
        let held = if control { 2 } else { 0 };
        for (kind, text) in [("keyDown", text), ("keyUp", "")] {
            let parameters = format!(
                "{{\"type\":\"{kind}\",\"key\":\"{key}\",\"code\":\"{key}\",\"windowsVirtualKeyCode\":{number},\
                 \"modifiers\":{held}{text}}}"
            );
            self.call("Input.dispatchKeyEvent", &parameters);
        }
    }

    /// An event of the mouse, in pixels of the window.
    pub fn mouse(&mut self, kind: &str, (x, y): (f64, f64)) {
        let button = match kind {
            "mouseMoved" => "",
            _ => ",\"button\":\"left\",\"clickCount\":1",
        };
        let parameters = format!("{{\"type\":\"{kind}\",\"x\":{x},\"y\":{y}{button}}}");
        self.call("Input.dispatchMouseEvent", &parameters);
    }

    pub fn click(&mut self, place: (f64, f64)) {
        for kind in ["mouseMoved", "mousePressed", "mouseReleased"] {
            self.mouse(kind, place);
        }
    }

    /// A tap with a finger.
    pub fn tap(&mut self, (x, y): (f64, f64)) {
        let touch = format!("{{\"type\":\"touchStart\",\"touchPoints\":[{{\"x\":{x},\"y\":{y}}}]}}");
        self.call("Input.dispatchTouchEvent", &touch);
        self.call("Input.dispatchTouchEvent", "{\"type\":\"touchEnd\",\"touchPoints\":[]}");
    }

    pub fn scheme(&mut self, scheme: &str) {
        let parameters = format!("{{\"features\":[{{\"name\":\"prefers-color-scheme\",\"value\":\"{scheme}\"}}]}}");
        self.call("Emulation.setEmulatedMedia", &parameters);
    }

    pub fn screen(&mut self, width: usize, height: usize, mobile: bool) {
        let parameters =
            format!("{{\"width\":{width},\"height\":{height},\"deviceScaleFactor\":1,\"mobile\":{mobile}}}");
        self.call("Emulation.setDeviceMetricsOverride", &parameters);
        let parameters = format!("{{\"enabled\":{mobile}}}");
        self.call("Emulation.setTouchEmulationEnabled", &parameters);
    }

    /// A part of the page as it is painted: a PNG file in base 64.
    pub fn painted(&mut self, left: f64, top: f64, width: f64, height: f64) -> String {
        let parameters =
            format!("{{\"clip\":{{\"x\":{left},\"y\":{top},\"width\":{width},\"height\":{height},\"scale\":1}}}}");
        text_field(&self.call("Page.captureScreenshot", &parameters), "data").unwrap()
    }

    /// The least and the largest lightness, from 0 to 255, of a painted part.
    pub fn lightness(&mut self, painted: &str) -> (f64, f64) {
        let expression = format!(
            "new Promise((done) => {{ const image = new Image(); image.onload = () => {{ \
             const canvas = document.createElement('canvas'); \
             canvas.width = image.width; canvas.height = image.height; \
             const context = canvas.getContext('2d'); context.drawImage(image, 0, 0); \
             const data = context.getImageData(0, 0, image.width, image.height).data; \
             let [least, largest] = [255, 0]; \
             for (let place = 0; place < data.length; place += 4) {{ \
             const light = 0.2126 * data[place] + 0.7152 * data[place + 1] + 0.0722 * data[place + 2]; \
             least = Math.min(least, light); largest = Math.max(largest, light); }} \
             done(least + ' ' + largest); }}; image.src = 'data:image/png;base64,{painted}'; }})"
        );
        let found = self.value(&expression);
        let (least, largest) = found.split_once(' ').unwrap();
        (least.parse().unwrap(), largest.parse().unwrap())
    }
}
