"""For Blender's own Python: renders the frames of a movie, or of a folder of pictures, as PNG without a conversion of
colours.

    blender --background --factory-startup --python blend.py -- FILE_OR_FOLDER FIRST OUT
"""

import os
import sys

import bpy

path, first, out = sys.argv[sys.argv.index("--") + 1 :]
scene = bpy.context.scene
strips = scene.sequence_editor_create().sequences
if os.path.isdir(path):
    names = sorted(os.listdir(path))
    strip = strips.new_image("clip", os.path.join(path, names[0]), 1, 1)
    for name in names[1:]:
        strip.elements.append(name)
    count = len(names)
    strip.frame_final_duration = count
else:
    strip = strips.new_movie("clip", path, 1, 1)
    count = strip.frame_duration
render = scene.render
render.resolution_x, render.resolution_y, render.resolution_percentage = (
    strip.elements[0].orig_width or 320,
    strip.elements[0].orig_height or 180,
    100,
)
scene.view_settings.view_transform = "Standard"
render.dither_intensity = 0
render.image_settings.file_format, render.image_settings.color_mode, render.image_settings.compression = "PNG", "RGB", 0
scene.frame_end = count
for number in range(int(first), count):
    scene.frame_set(number + 1)
    render.filepath = os.path.join(out, f"{number - int(first):06}.png")
    bpy.ops.render.render(write_still=True)
