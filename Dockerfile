# The editor, for a machine that isn't Linux on x86-64. Its address opens in the browser of that machine, and nowhere else:
#   docker build -t kroft . && docker run --rm -it -p 127.0.0.1:19810:19810 kroft
FROM --platform=linux/amd64 python:3-slim
WORKDIR /kroft
COPY kroft-page ./
COPY scripts/serve_page.py scripts/
COPY page/workbench page/workbench
COPY examples examples
COPY dist/x86_64-linux/kroft dist/x86_64-linux/
ENV KROFT=/kroft/dist/x86_64-linux/kroft
USER nobody
ENTRYPOINT ["./kroft-page", "--listen", "0.0.0.0", "--port", "19810"]
