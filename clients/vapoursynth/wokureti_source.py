"""A VapourSynth source over a session of vp8serve.

    import vapoursynth as vs
    from wokureti_source import source

    clip, session = source("in.ivf", script="fade 0 24 24 256 0", cache=64)
    clip.set_output()

A session that is open can be given instead of a path, after its edits:

    session = Session("in.ivf")
    session.delete(range(0, 50))
    clip, session = source(session)

Put this folder and ../python on PYTHONPATH, and vp8serve on PATH.
"""

from fractions import Fraction
import ctypes

import vapoursynth as vs
from wokureti import Refused, Session

# What VP8 is: BT.601, limited range, chroma samples in the middle of four (as in JPEG), frames that are not interlaced.
PROPERTIES = {"_Matrix": 6, "_ColorRange": 1, "_ChromaLocation": 1, "_FieldBased": 0}


def _write(frame, index, plane):
    """Copies the rows of a plane into a plane of VapourSynth, whose rows are further apart."""
    rows, stride = plane.shape[0], frame.get_stride(index)
    start = frame.get_write_ptr(index).value
    samples, width = plane.tobytes(), plane.shape[1]
    for row in range(rows):
        ctypes.memmove(start + row * stride, samples[row * width : (row + 1) * width], width)


def _first_size(session, count):
    """The size of the first frame that is served: the program then refuses frames of another size."""
    refused = None
    for number in range(count):
        try:
            first = session.frame(number)
            return first.width, first.height
        except Refused as error:
            refused = refused or error
    if refused:
        raise refused
    raise ValueError("the stream has no frames: VapourSynth has no clips without frames")


def source(stream, script=None, **options):
    """A clip of the frames that vp8serve serves, and the session, for edits.

    `stream` is the path of an IVF file, and the options are those of `wokureti.Session`; or it is a session. `script`
    is set before the first frame is served, which fixes the size: a text, or a `wokureti.Script`. The clip has the
    frames that the stream has now, and VapourSynth caches frames: make a new clip after an edit.

    The sides of the frames must be even. A frame that is refused raises an error with the reply when it is asked for.
    Each frame has the properties `_Matrix`, `_ColorRange`, `_ChromaLocation`, `_FieldBased`, `_DurationNum`,
    `_DurationDen` and `_AbsoluteTime`, and `_PictType` if there is no script.
    """
    session = stream if isinstance(stream, Session) else Session(stream, **options)
    try:
        return _clip(session, script), session
    except BaseException:
        if session is not stream:
            session.kill()
        raise


def _clip(session, script):
    if script is not None:
        session.script(script)
    count = session.count().frames
    width, height = _first_size(session, count)
    if width % 2 or height % 2:
        raise ValueError(f"the frames have {width}x{height} samples: VapourSynth's YUV420P8 needs even sides")
    rate = Fraction(*session.rate)
    blank = vs.core.std.BlankClip(
        format=vs.YUV420P8, width=width, height=height, length=count, fpsnum=rate.numerator, fpsden=rate.denominator
    )
    kinds = session.shown_kinds()

    def serve(n, f):
        served = session.frame(n)
        frame = f.copy()
        for index, plane in enumerate((served.y, served.u, served.v)):
            _write(frame, index, plane)
        times = {"_DurationNum": rate.denominator, "_DurationDen": rate.numerator, "_AbsoluteTime": float(n / rate)}
        for name, value in {**PROPERTIES, **times}.items():
            frame.props[name] = value
        if kinds is not None:
            frame.props["_PictType"] = "I" if kinds[n] == "key" else "P"
        return frame

    return vs.core.std.ModifyFrame(blank, clips=blank, selector=serve)
