#pragma once
#define alignas _Alignas
