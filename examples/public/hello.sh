#!/bin/sh
echo "hello from release 1"
