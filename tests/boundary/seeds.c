/* Texts that the others are made from. */
#include <stddef.h>

#include "inputs.h"

const struct seed seeds[] = {
    {
        "{'command':'stop-lot','data':{'lot':'str'}}",
        {
            "{\"execute\":\"stop-lot\",\"arguments\":{\"lot\":\"007\"}}",
            "{\"execute\":\"stop-lot\",\"arguments\":{\"l\\u006ft\":\"\\uD83D\\uDE00\"},\"id\":[null,{\"a\":1e9}]}",
            "{\"execute\":\"stop-lot\",\"arguments\":{\"lot\":7}}",
            "{\"execute\":\"stop-lot\",\"arguments\":{\"lot\":\"007\",\"lot\":\"007\"}}",
            "{\"exec-oob\":\"stop-lot\",\"arguments\":{\"lot\":\"007\"}}",
            "{\"execute\":\"stop\"}",
            "{\"execute\":\"stop-lot\",\"event\":1}",
        },
    },
    {
        "# lots\n"
        "{'enum':'Grade','data':['fine','coarse','2nd']}{'enum':'Share','data':['half','all']}"
        "{'struct':'Base','data':{'id':'uint32','*grade':'Grade'}}"
        "{'struct':'Lot','base':'Base','data':{'name':'str','*parts':['Lot'],'*note':'any'}}"
        "{'struct':'Sack','data':{'weight':'number','*full':'bool'}}"
        "{'union':'Batch','base':{'kind':'Grade','*lots':['Lot']},'discriminator':'kind','data':{'fine':'Sack','2nd':'Base'}}"
        "{'alternate':'Which','data':{'lot':'Lot','id':'int64','all':'bool','none':'null','share':'Share'}}"
        "{'command':'move','data':{'what':['Which'],'*batch':'Batch'},'returns':['Lot'],'allow-oob':true}"
        "{'command':'look','data':'Lot','returns':'Batch'}"
        "{'command':'quit'}",
        {
            "{\"execute\":\"move\",\"arguments\":{\"what\":[1,true,null,\"all\",{\"id\":4294967295,\"name\":\"\\n\"}]}}",
            "{\"exec-oob\":\"move\",\"arguments\":{\"batch\":{\"weight\":1.5e-3,\"full\":false,\"kind\":\"fine\"},\"what\":[]}}",
            "{\"execute\":\"move\",\"arguments\":{\"what\":[-0],\"batch\":{\"kind\":\"coarse\",\"lots\":[{\"id\":0,\"name\":\"\"}]}}}",
            "{\"execute\":\"move\",\"arguments\":{\"what\":[],\"batch\":{\"kind\":\"2nd\",\"id\":7,\"grade\":\"coarse\"}}}",
            "{\"execute\":\"look\",\"arguments\":{\"id\":1,\"name\":\"a\",\"parts\":[{\"id\":2,\"name\":\"b\",\"parts\":[]}],\"note\":{\"x\":[[]]}}}",
            "{\"execute\":\"quit\"}",
            "{\"execute\":\"quit\",\"arguments\":{},\"id\":\"\xC3\xB6\xE2\x82\xAC\xF0\x9F\x98\x80\"}",
            "{\"execute\":\"look\",\"arguments\":{\"id\":4294967296,\"name\":\"a\"}}",
            "{\"execute\":\"move\",\"arguments\":{\"what\":[1.0]}}",
        },
    },
    {
        "{'struct':'s1','data':{'*t':'s3'}}{'struct':'s2','base':'s1','data':{}}{'struct':'s3','base':'s2','data':{}}"
        "{'command':'c','data':'s3','allow-oob':false}",
        {
            "{\"execute\":\"c\",\"arguments\":{\"t\":{\"t\":{\"t\":{\"t\":{\"t\":{\"t\":{\"t\":{\"t\":{}}}}}}}}}}",
            "{ \"id\" : 1 , \"arguments\" : { \"t\" : { } } , \"execute\" : \"c\" }\r\n",
            "{\"execute\":\"\\u0063\"}",
        },
    },
    {
        "{'command':'c','data':{'*i8':'int8','*i16':'int16','*i32':'int32','*i64':'int64','*u8':'uint8','*u16':'uint16',"
        "'*u32':'uint32','*u64':'uint64','*size':'size','*int':'int','*number':'number','*bool':'bool','*null':'null'}}",
        {
            "{\"execute\":\"c\",\"arguments\":{\"i8\":-128,\"i16\":32767,\"i32\":-2147483648,\"i64\":9223372036854775807}}",
            "{\"execute\":\"c\",\"arguments\":{\"u8\":255,\"u16\":65535,\"u32\":0,\"u64\":18446744073709551615,\"size\":-0}}",
            "{\"execute\":\"c\",\"arguments\":{\"int\":1,\"number\":1E+2,\"bool\":true,\"null\":null}}",
            "{\"execute\":\"c\",\"arguments\":{\"u64\":18446744073709551623}}",
        },
    },
    {"", {"{\"execute\":\"c\"}", "[]", ""}},
    {NULL, {NULL}},
};

const char *const refused_schemas[] = {
    "[]",
    "{'command':'c','x':1}",
    "{'command':'c','command':'c'}",
    "{'event':'e'}",
    "{'command':'c','returns':['a','b']}",
    "{'enum':'q_e','data':[]}",
    "{'struct':'s','data':{'*':'int'}}",
    "{'enum':'e','data':['v','v']}",
    "{'enum':'e','data':['v-1','v_1']}",
    "{'struct':'int','data':{}}",
    "{'command':'c','data':'none'}",
    "{'enum':'e','data':[]}{'struct':'s','base':'e','data':{}}",
    "{'struct':'s','base':'t','data':{}}{'struct':'t','base':'s','data':{}}",
    "{'struct':'s','base':'t','data':{'a':'int'}}{'struct':'t','data':{'a':'int'}}",
    "{'union':'u','base':{},'discriminator':'d','data':{}}",
    "{'enum':'e','data':['v']}{'struct':'s','data':{'d':'e'}}{'union':'u','base':{'d':'e'},'discriminator':'d','data':{'v':'s'}}",
    "{'alternate':'a','data':{'i':'int','n':'number'}}",
    "{'alternate':'a','data':{'o':'any'}}",
    "{'alternate':'a','data':{'s':'str','b':'bool'}}",
    "{'enum':'e','data':['off','0']}{'alternate':'a','data':{'e':'e','n':'number'}}",
    "{'command':'c','returns':'any'}",
    NULL,
};
