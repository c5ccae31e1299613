use qq_amqp_wire::{Frame, Method};
use qq_base::{Bytes, Text};
use std::fmt::{self, Formatter, Write};

/// Bytes up to this length are shown in full.
const SHOWN: usize = 32;

/// A frame in words: its channel, its type, and its fields by their names.
#[derive(Clone, Copy)]
pub struct FrameWords<'a>(pub &'a Frame);

impl fmt::Display for FrameWords<'_> {
    fn fmt<W: Write>(&self, f: &mut Formatter<W>) -> fmt::Result {
        match self.0 {
            Frame::Protocol => f.write_str("protocol"),
            Frame::Method { channel, method } => {
                write!(f, "channel {channel}, ")?;
                write_method(f, method)
            }
            Frame::Header {
                channel,
                class,
                size,
                properties,
            } => {
                write!(f, "channel {channel}, header, class {class}, size {size}")?;
                write_bytes(f, "properties", properties)
            }
            Frame::Body { channel, bytes } => {
                write!(f, "channel {channel}, body")?;
                write_bytes(f, "bytes", bytes)
            }
            Frame::Heartbeat { channel } => write!(f, "channel {channel}, heartbeat"),
        }
    }
}

fn write_bytes<W: Write>(f: &mut Formatter<W>, name: &str, bytes: &Bytes) -> fmt::Result {
    let bytes = bytes.as_slice();
    if bytes.is_empty() {
        return write!(f, ", no {name}");
    }
    if bytes.len() > SHOWN {
        return write!(f, ", {} {name}", bytes.len());
    }
    write!(f, ", {name} ")?;
    for byte in bytes {
        write!(f, "{byte:02x}")?;
    }
    Ok(())
}

fn write_text<W: Write>(f: &mut Formatter<W>, name: &str, text: &Text) -> fmt::Result {
    if text.len() > SHOWN {
        return write!(f, ", {name} of {}", text.len());
    }
    write!(f, ", {name} \"{}\"", text.as_str())
}

fn write_method<W: Write>(f: &mut Formatter<W>, method: &Method) -> fmt::Result {
    match method {
        Method::ConnectionStart {
            major,
            minor,
            properties,
            mechanisms,
            locales,
        } => {
            f.write_str("connection.start")?;
            write!(f, ", major {major}")?;
            write!(f, ", minor {minor}")?;
            write_bytes(f, "properties", properties)?;
            write_bytes(f, "mechanisms", mechanisms)?;
            write_bytes(f, "locales", locales)
        }
        Method::ConnectionStartOk {
            properties,
            mechanism,
            response,
            locale,
        } => {
            f.write_str("connection.start-ok")?;
            write_bytes(f, "properties", properties)?;
            write_text(f, "mechanism", mechanism)?;
            write_bytes(f, "response", response)?;
            write_text(f, "locale", locale)
        }
        Method::ConnectionTune {
            channel_max,
            frame_max,
            heartbeat,
        } => {
            f.write_str("connection.tune")?;
            write!(f, ", channel max {channel_max}")?;
            write!(f, ", frame max {frame_max}")?;
            write!(f, ", heartbeat {heartbeat}")
        }
        Method::ConnectionTuneOk {
            channel_max,
            frame_max,
            heartbeat,
        } => {
            f.write_str("connection.tune-ok")?;
            write!(f, ", channel max {channel_max}")?;
            write!(f, ", frame max {frame_max}")?;
            write!(f, ", heartbeat {heartbeat}")
        }
        Method::ConnectionOpen { virtual_host } => {
            f.write_str("connection.open")?;
            write_text(f, "virtual host", virtual_host)
        }
        Method::ConnectionOpenOk => f.write_str("connection.open-ok"),
        Method::ConnectionClose {
            code,
            text,
            class,
            method,
        } => {
            f.write_str("connection.close")?;
            write!(f, ", code {code}")?;
            write_text(f, "text", text)?;
            write!(f, ", class {class}")?;
            write!(f, ", method {method}")
        }
        Method::ConnectionCloseOk => f.write_str("connection.close-ok"),
        Method::ChannelOpen => f.write_str("channel.open"),
        Method::ChannelOpenOk => f.write_str("channel.open-ok"),
        Method::ChannelClose {
            code,
            text,
            class,
            method,
        } => {
            f.write_str("channel.close")?;
            write!(f, ", code {code}")?;
            write_text(f, "text", text)?;
            write!(f, ", class {class}")?;
            write!(f, ", method {method}")
        }
        Method::ChannelCloseOk => f.write_str("channel.close-ok"),
        Method::QueueDeclare {
            queue,
            passive,
            durable,
            exclusive,
            auto_delete,
            no_wait,
            arguments,
        } => {
            f.write_str("queue.declare")?;
            write_text(f, "queue", queue)?;
            write!(f, ", passive {passive}")?;
            write!(f, ", durable {durable}")?;
            write!(f, ", exclusive {exclusive}")?;
            write!(f, ", auto delete {auto_delete}")?;
            write!(f, ", no wait {no_wait}")?;
            write_bytes(f, "arguments", arguments)
        }
        Method::QueueDeclareOk {
            queue,
            messages,
            consumers,
        } => {
            f.write_str("queue.declare-ok")?;
            write_text(f, "queue", queue)?;
            write!(f, ", messages {messages}")?;
            write!(f, ", consumers {consumers}")
        }
        Method::QueuePurge { queue, no_wait } => {
            f.write_str("queue.purge")?;
            write_text(f, "queue", queue)?;
            write!(f, ", no wait {no_wait}")
        }
        Method::QueuePurgeOk { messages } => {
            f.write_str("queue.purge-ok")?;
            write!(f, ", messages {messages}")
        }
        Method::BasicQos {
            size,
            count,
            global,
        } => {
            f.write_str("basic.qos")?;
            write!(f, ", size {size}")?;
            write!(f, ", count {count}")?;
            write!(f, ", global {global}")
        }
        Method::BasicQosOk => f.write_str("basic.qos-ok"),
        Method::BasicConsume {
            queue,
            tag,
            no_local,
            no_ack,
            exclusive,
            no_wait,
            arguments,
        } => {
            f.write_str("basic.consume")?;
            write_text(f, "queue", queue)?;
            write_text(f, "tag", tag)?;
            write!(f, ", no local {no_local}")?;
            write!(f, ", no ack {no_ack}")?;
            write!(f, ", exclusive {exclusive}")?;
            write!(f, ", no wait {no_wait}")?;
            write_bytes(f, "arguments", arguments)
        }
        Method::BasicConsumeOk { tag } => {
            f.write_str("basic.consume-ok")?;
            write_text(f, "tag", tag)
        }
        Method::BasicCancel { tag, no_wait } => {
            f.write_str("basic.cancel")?;
            write_text(f, "tag", tag)?;
            write!(f, ", no wait {no_wait}")
        }
        Method::BasicCancelOk { tag } => {
            f.write_str("basic.cancel-ok")?;
            write_text(f, "tag", tag)
        }
        Method::BasicPublish {
            exchange,
            key,
            mandatory,
            immediate,
        } => {
            f.write_str("basic.publish")?;
            write_text(f, "exchange", exchange)?;
            write_text(f, "key", key)?;
            write!(f, ", mandatory {mandatory}")?;
            write!(f, ", immediate {immediate}")
        }
        Method::BasicDeliver {
            consumer,
            tag,
            redelivered,
            exchange,
            key,
        } => {
            f.write_str("basic.deliver")?;
            write_text(f, "consumer", consumer)?;
            write!(f, ", tag {tag}")?;
            write!(f, ", redelivered {redelivered}")?;
            write_text(f, "exchange", exchange)?;
            write_text(f, "key", key)
        }
        Method::BasicGet { queue, no_ack } => {
            f.write_str("basic.get")?;
            write_text(f, "queue", queue)?;
            write!(f, ", no ack {no_ack}")
        }
        Method::BasicGetOk {
            tag,
            redelivered,
            exchange,
            key,
            messages,
        } => {
            f.write_str("basic.get-ok")?;
            write!(f, ", tag {tag}")?;
            write!(f, ", redelivered {redelivered}")?;
            write_text(f, "exchange", exchange)?;
            write_text(f, "key", key)?;
            write!(f, ", messages {messages}")
        }
        Method::BasicGetEmpty => f.write_str("basic.get-empty"),
        Method::BasicAck { tag, multiple } => {
            f.write_str("basic.ack")?;
            write!(f, ", tag {tag}")?;
            write!(f, ", multiple {multiple}")
        }
        Method::BasicReject { tag, requeue } => {
            f.write_str("basic.reject")?;
            write!(f, ", tag {tag}")?;
            write!(f, ", requeue {requeue}")
        }
        Method::BasicNack {
            tag,
            multiple,
            requeue,
        } => {
            f.write_str("basic.nack")?;
            write!(f, ", tag {tag}")?;
            write!(f, ", multiple {multiple}")?;
            write!(f, ", requeue {requeue}")
        }
        Method::ConfirmSelect { no_wait } => {
            f.write_str("confirm.select")?;
            write!(f, ", no wait {no_wait}")
        }
        Method::ConfirmSelectOk => f.write_str("confirm.select-ok"),
    }
}
