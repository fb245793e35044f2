# `make run` builds the proved program and runs its main job once; `make test` is what `.ci/run` calls; `make deb` makes the
# Debian package.
.PHONY: run test deb pictures

run:
	bash tests/run_once.sh

test:
	rt ci
	bash tests/loopback.sh
	bash tests/cache.sh
	bash tests/serve.sh
	bash tests/replies.sh
	bash tests/serve_table.sh
	bash tests/apt.sh
	bash tests/fetch_table.sh
	bash tests/downloads.sh
	bash tests/check_conf.sh
	bash tests/desk_table.sh
	bash tests/report.sh
	bash tests/page.sh
	bash tests/expire.sh
	bash tests/import.sh
	bash tests/gen.sh
	bash tests/folder_syncs.sh
	bash tests/debian_index.sh
	bash tests/reach_table.sh
	bash tests/expire_table.sh
	bash tests/package.sh

# packaging/out/acng_VERSION_amd64.deb
deb:
	bash packaging/build.sh

# The pictures of docs/ARCHITECTURE.md, drawn by Graphviz from the text beside them.
pictures:
	for picture in layers request desk download; do dot -Tsvg docs/pictures/$$picture.dot -o docs/pictures/$$picture.svg || exit 1; done
