(cd ../ten_lanes && bash stream.sh) | head -n 700
